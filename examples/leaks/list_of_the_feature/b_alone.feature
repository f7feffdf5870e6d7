Feature: A list of the feature's layer
  Scenario: B
    Then the basket is as it was: milk
