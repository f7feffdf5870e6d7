Feature: A step's type is carried over
  Scenario: A
    Then it passes

  Scenario: B
    And x
