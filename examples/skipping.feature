Feature: Skipping
  Scenario: From a step on, whether the library matches the others or not
    Given it passes
    When the scenario is skipped
    Then it fails
    And nothing knows this

  @offline
  Scenario: In a hook before the scenario, so all its steps
    Given the file "log" should exist
    And nothing knows this

  Scenario: This one isn't skipped
    Given the file "log" should exist
