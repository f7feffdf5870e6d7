Feature: A step's type is carried over
  Scenario: C
    Given it passes

  Scenario: B
    And x
