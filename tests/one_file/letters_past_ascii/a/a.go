package é
