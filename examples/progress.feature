Feature: One line for each file
  Scenario: passes
    Given it passes

  Scenario: skips itself
    Given the scenario is skipped

  Scenario: fails
    Given it fails
