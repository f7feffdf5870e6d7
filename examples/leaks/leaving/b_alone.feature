Feature: A step that leaves
  Scenario: B
    Then it fails
