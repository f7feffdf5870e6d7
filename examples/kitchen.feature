# Runs with a library of its own: ./run --library examples/kitchen.steps examples/kitchen.feature
Feature: Kitchen
  Scenario: Eggs are counted
    Given there are 4 eggs
    When 8 more eggs are bought
    * everybody waits for 10 minutes
    Then there should be 12 eggs

  Scenario: A recipe is kept and torn out
    Given the recipe pancakes:
      """
      3 eggs
      half a litre of milk
      """
    Then the recipe pancakes should mention half a litre
    But everybody waits for 1 minutes
    When the recipe pancakes is torn out
    Then there should be no recipe pancakes

  Scenario: Nobody has written the last step
    Given there are 4 eggs
    When Ada eats 2 of the eggs
    Then there should be 4 eggs
    And the kitchen should be clean
