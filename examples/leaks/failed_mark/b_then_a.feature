Feature: A mark that a step has failed
  Scenario: B
    Then failed isn't set

  Scenario: A
    When it fails
