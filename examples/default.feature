# Steps of the built-in library. It runs with default.steps, which is that library as a file.
Feature: The built-in library

  Scenario: Files
    Given a file named "f" containing "one"
    And a file named "g" with:
      """
      two
      """
    When the file "f" is extended with ", two"
    And the file "f" is extended with:
      """
      , three
      """
    And the file "f" is renamed to "h"
    And the file "g" is removed
    And these files:
      | name | text |
      | i    | four |
      | j    | five |
    Then the file "h" should exist
    And the file "f" should not exist
    And the file "h" should be "one, two, three"
    And the file "i" should be:
      """
      four
      """
    And the file "h" should contain "two"
    And the file "j" should contain:
      """
      ive
      """

  Scenario: Variables
    Given the variable "V" is set to "one"
    Then the variable "V" should be "one"
    When the variable "V" is unset
    Then the variable "V" should be unset

  Scenario: Values and numbers
    Given the value "v" is set to "one"
    Then the value "v" should be "one"
    When the value "v" is deleted
    Then the value "v" should be absent
    Given the number "n" is set to 40
    When the number "n" grows by 2
    Then the number "n" should be 42

  Scenario: Cleanups and skipping
    Given at cleanup it passes
    When the scenario is skipped

  Scenario: Passing and failing
    Given it passes
    Then it fails
