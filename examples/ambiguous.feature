# Runs with a library whose second entry is refused.
Feature: Lamps
  Scenario: A lamp
    Given a lamp
