# Two scenarios that pass.
Feature: Greetings

  Scenario: A variable keeps its text
    Given the variable "GREETING" is set to "hello"
    Then the variable "GREETING" should be "hello"

  Scenario: A later text takes the place of an earlier one
    Given the variable "GREETING" is set to "hello"
    When the variable "GREETING" is set to "good morning"
    Then the variable "GREETING" should be "good morning"
    And it passes
