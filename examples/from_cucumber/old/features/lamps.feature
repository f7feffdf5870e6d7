@house
Feature: Lamps
  Background:
    Given the hall lamp is off

  Rule: A switch turns a lamp on or off

    Example: On
      When the hall lamp is on
      Then the hall lamp should be on

    Example: The next one begins anew
      Then the hall lamp should be off

  Rule: Lamps are counted

    Scenario Outline: <n> in the <room>
      Given 2 lamps in the <room>
      When <n> more lamps come to the <room>
      Then there should be <all> lamps in the <room>

      Examples:
        | n | all | room    |
        | 1 | 3   | hall    |
        | 5 | 7   | kitchen |
