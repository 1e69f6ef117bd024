"""The web server of the console and of the cluster's service: requests within limits, and who may send them."""
