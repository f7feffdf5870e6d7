Feature: Hooks that fail
  Scenario: All hooks round this one pass
    Given the variable "SERVER" should be "up"

  @broken
  Scenario: A hook before this one fails
    Given it passes
    And nothing knows this

  @untidy
  Scenario: A hook after this one fails
    Given a file named "leftover" containing "x"
