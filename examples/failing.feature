# The ways in which a step fails.
Feature: Paint

  Scenario: Sets a colour
    Given the variable "COLOUR" is set to "red"

  Scenario: Does not see what another scenario set
    Then the variable "COLOUR" should be "red"

  Scenario: Finds another colour
    Given the variable "COLOUR" is set to "red"
    Then the variable "COLOUR" should be "blue"
    And it passes

  Scenario: Asks for a failure
    Given it fails
