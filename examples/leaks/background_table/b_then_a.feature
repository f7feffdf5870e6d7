Feature: A table of a background
  Background:
    Given these files:
      | name  | text |
      | bread | 1    |
      | milk  | 2    |

  Scenario: B
    Then the file bread is there

  Scenario: A
    When the file bread is taken out
