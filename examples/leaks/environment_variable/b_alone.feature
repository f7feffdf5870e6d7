Feature: A variable of the environment
  Scenario: B
    Then REGION is unset
