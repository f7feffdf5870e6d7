Feature: A mark that a step has failed
  Scenario: A
    When it fails

  Scenario: B
    Then failed isn't set
