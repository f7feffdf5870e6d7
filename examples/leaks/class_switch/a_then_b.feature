Feature: A switch of a class
  Scenario: A
    When later steps go on

  Scenario: B
    When it fails
    Then a mark is left
