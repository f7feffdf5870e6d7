Feature: Lines
  Scenario: in line 2
    Given it passes
  Scenario Outline: in line <line>
    Given it passes
    Examples:
      | line |
      | 8    |
      | 9    |
