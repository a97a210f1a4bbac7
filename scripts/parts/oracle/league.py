"""prints a league of a kind of distances

usage: scripts/oracle league circle|constant|nowhere|plane|coasts N WEIGHT [rules] [wishes] [competition] [phased]

N teams with this hard weight: in a circle, of constant distance, of distances that are all 0, of towns drawn in a square of 1000, or of
towns drawn on two coasts that are 3000 apart. With `rules` half as many drawn games as there are teams have to stay in a round each. They
can: in these rounds they are in the start with its teams renamed. With `wishes` there are 108 drawn soft rules, twelve of each class. With
`competition` there are seven drawn rules for each team in the style of the 2021 timetabling competition: of all classes, most of one or
two teams, of some rounds or some opponents, every second one hard. The start with its teams renamed and its rounds in another order keeps
all that are hard. With `phased` the two games of each pair stand in different halves."""
from .. import leagues


def main(kind, teams, weight, *extras):
    print(leagues.text(kind, int(teams), int(weight), extras), end="")
