package native

const most = 1000
