"""The tools around hugetlbd: plans and their answers, scripts with their replies, pictures and counts."""
