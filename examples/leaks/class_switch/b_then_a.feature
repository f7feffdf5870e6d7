Feature: A switch of a class
  Scenario: B
    When it fails
    Then a mark is left

  Scenario: A
    When later steps go on
