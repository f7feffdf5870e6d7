# A row with fewer cells than the first is refused, and not filled up.
Feature: Prices
  Scenario Outline: <fruit>
    Given the number "price" is set to <price>

    Examples:
      | fruit  | price |
      | apples | 2     |
      | pears |
