Feature: A cleanup of the feature that fails
  Scenario: B
    Then it passes

  Scenario: A
    Then it passes
