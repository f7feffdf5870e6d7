# Runs with --env: each scenario begins with the variables of the command line, and with no others.
Feature: Regions
  Scenario: The region is changed
    Then the variable "REGION" should be "eu-west"
    When the variable "REGION" is set to "us-east"
    Then the variable "REGION" should be "us-east"

  Scenario: It is as it was given
    Then the variable "REGION" should be "eu-west"
    And the variable "HOME" should be unset
