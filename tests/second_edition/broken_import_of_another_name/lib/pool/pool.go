package work

func New() {}

func New() {}
