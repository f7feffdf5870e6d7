# The scenarios of isolation.feature in another order: each has the verdict that it has there.
Feature: Isolation
  Scenario: Sees nothing
    Then the file "f" should not exist
    And the file "g" should not exist
    And the variable "V" should be unset
    And the value "v" should be absent

  Scenario: Changes everything, and fails
    Given a file named "f" containing "two"
    And the file "f" is renamed to "g"
    And the variable "V" is set to "two"
    And the number "v" is set to 2
    When it fails
    Then the file "g" should be "two"

  Scenario: Writes everything
    Given these files:
      | name | text |
      | f    | one  |
      | g    | two  |
    And the variable "V" is set to "one"
    And the value "v" is set to "one"
    Then the file "f" should be "one"
