Feature: A list of the feature's layer
  Scenario: A
    When bread is put into the basket

  Scenario: B
    Then the basket is as it was: milk
