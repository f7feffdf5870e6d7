Feature: A cleanup of the feature that fails
  Scenario: A
    Then it passes

  Scenario: B
    Then it passes
