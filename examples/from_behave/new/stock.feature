Feature: Stock
  What is in stock is counted by the piece.

  Background:
    Given 10 apples in stock

  Scenario: Apples are sold
    When the stock of apples changes by -3
    Then 7 apples are left
    And the price of apples is 2 euros

  Scenario: The next scenario begins anew
    And 5 pears in stock
    Then 10 apples are left
    And 5 pears are left
