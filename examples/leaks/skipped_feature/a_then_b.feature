Feature: A step that skips
  Scenario: A
    When this is skipped

  Scenario: B
    Then it fails
