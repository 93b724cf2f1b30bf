"""The board: pages to play on in a browser, and the small server behind them."""
