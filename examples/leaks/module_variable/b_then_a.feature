Feature: A variable of a module
  Scenario: B
    Then nothing is in the basket

  Scenario: A
    When bread is put into the basket
