Feature: A step that skips
  Scenario: B
    Then it fails

  Scenario: A
    When this is skipped
