ab

#