Feature: f
@a @b
Scenario: s
Given at cleanup the file "log" should be "absSB"
Then the file "log" should be "abs"
