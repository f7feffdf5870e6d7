Feature: A value is hidden, deleted and set
  Scenario: A
    When n is set to 7
    And n is deleted

  Scenario: B
    When n is set to 8
    Then n is 8
