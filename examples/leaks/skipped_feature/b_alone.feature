Feature: A step that skips
  Scenario: B
    Then it fails
