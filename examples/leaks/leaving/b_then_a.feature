Feature: A step that leaves
  Scenario: B
    Then it fails

  Scenario: A
    When this is left
