Feature: A step that leaves
  Scenario: A
    When this is left

  Scenario: B
    Then it fails
