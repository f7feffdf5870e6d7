# Steps that no built-in step matches.
Feature: Night

  Scenario: Looks at the sky
    Given it passes
    When the moon is full
    Then it passes
    And the stars are out
