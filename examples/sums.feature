Feature: Sums
  Scenario Outline: <start> and <more>
    Given the number "sum" is set to <start>
    When the number "sum" grows by <more>
    Then the number "sum" should be <end>

    Examples: small
      | start | more | end |
      | 1     | 1    | 2   |
      | 2     | -5   | -3  |

    Examples: large
      | start      | more | end        |
      | 1000000000 | 1    | 1000000001 |
