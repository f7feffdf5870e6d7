Feature: Cleanups
  Scenario: The last that was registered runs first
    Given at cleanup the file "log" should be "open, hook, second, first"
    And at cleanup the file "log" is extended with ", first"
    And at cleanup the file "log" is extended with ", second"
    Then the file "log" should be "open"

  Scenario: They run after a failed step, too
    Given at cleanup the file "log" should be:
      """
      open, hook
      """
    When it fails
    Then at cleanup it fails

  Scenario: One that fails doesn't keep the others from running
    Given at cleanup the file "log" should be "open, hook, last"
    And at cleanup it fails
    And at cleanup the file "log" is extended with ", last"

  Scenario: What it finds is looked up at once
    Given at cleanup it passes
    And at cleanup nobody has written this step
    And at cleanup it passes

  Scenario: A cleanup registers no cleanup
    Given at cleanup at cleanup it passes
