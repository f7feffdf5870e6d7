@shop
Feature: A shop with hooks
  @sale
  Scenario: Apples are sold
    Given the file "log" should be "run, @shop, feature, @sale, scenario"
    And the value "currency" should be "cent"
    When the number "apples" grows by -3
    Then the number "apples" should be 7
    When the value "apples" is deleted
    Then the number "apples" should be 10

  Scenario: Nothing of that is left, and what a feature has isn't deleted in a scenario
    Given the file "log" should be "run, @shop, feature, scenario"
    And the value "currency" should be "euro"
    And the number "apples" should be 10
    When the value "apples" is deleted
