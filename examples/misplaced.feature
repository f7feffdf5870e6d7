# The last line is no step, no heading and no comment.
Feature: Notes

  Scenario: Has a line that cannot stand here
    Given it passes
    and this is only a remark
