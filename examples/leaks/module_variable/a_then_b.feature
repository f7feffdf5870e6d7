Feature: A variable of a module
  Scenario: A
    When bread is put into the basket

  Scenario: B
    Then nothing is in the basket
