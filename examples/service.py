"""A service for verdicts, ranks and games. A table in a request is what a table file has. `uvicorn service:app` runs it in this folder.

    POST /judge, POST /rank      a table; its verdict, or its rank
    POST /games                  a table; the number of a new game
    POST /games/1/lend a         a line of the game; its answer
    GET /games/1                 the table as it stands"""
import dollar
from fastapi import FastAPI, Request
from fastapi.responses import JSONResponse

app, games = FastAPI(), []


@app.exception_handler(dollar.Fault)
@app.exception_handler(TypeError)
@app.exception_handler(ValueError)
@app.exception_handler(LookupError)
def refused(request: Request, error: Exception):
    return JSONResponse({"refused": str(error)}, 422)


@app.post("/judge")
def judge(table: dict):
    return dollar.Table(table).judge().as_dict()


@app.post("/rank")
def rank(table: dict):
    return {"rank": dollar.Table(table).rank(patience=10)}


@app.post("/games")
async def begin(table: dict):
    games.append(await dollar.AsyncSession.open(dollar.Table(table)))
    return {"game": len(games)}


@app.post("/games/{number}/{line}")
async def play(number: int, line: str):
    return (await games[number - 1].ask(line)).as_dict()


@app.get("/games/{number}")
def now(number: int):
    return games[number - 1].session.now().to_dict()


@app.on_event("shutdown")
async def end():
    for game in games:
        await game.close()
