Feature: Paint
  Background:
    Given a file named "colours" containing "red"

  Scenario: A colour is added
    When the file "colours" is extended with ", blue"
    Then the file "colours" should be "red, blue"

  Scenario Outline: Each scenario begins anew with <colour>
    Then the file "colours" should contain "<colour>"

    Examples:
      | colour |
      | red    |
      | blue   |
