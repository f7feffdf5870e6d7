Feature: A step's type is carried over
  Scenario: B
    And x
