ab

cd#