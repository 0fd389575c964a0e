/* The names of JR/T 0016-2004 for C and C++, beside ftd.h: TIDs, FIDs, the items of each field, the values of the
 * enumerations with their meanings, the refusals in words.
 * Made by tests/tables/cnames.py from the tables of crate ftd (Appendices A, B, D and E) and ftd.h; not to be edited.
 *
 * Names of TIDs, messages, fields, items and types are the standard's, meanings are its words in English. Nothing here
 * is in the library: the tables stand in the functions that look them up, and a program has those that it calls. A
 * number that is unknown gives a null pointer.
 */
#ifndef FTD_NAMES_H
#define FTD_NAMES_H

#include "ftd.h"

/* ---- Numbers by name ---- */

/* TIDs (Appendix A): mode, and the messages with it (Appendix E). */
enum ftd_tid {
    FTD_TID_ERROR = 0x0001,                           /* dialog: down Error */
    FTD_TID_QRY_MARKET_MATCH_DATA = 0x0002,           /* dialog: up ReqQryMarketMatchData, down RspQryMarketMatchData */
    FTD_TID_ORDER_INSERT = 0x0003,                    /* dialog: up ReqOrderInsert, down RspOrderInsert */
    FTD_TID_ORDER_ACTION = 0x0004,                    /* dialog: up ReqOrderAction, down RspOrderAction */
    FTD_TID_QRY_INSTRUMENT = 0x0005,                  /* dialog: up ReqQryInstrument, down RspQryInstrument */
    FTD_TID_QRY_ORDER = 0x0006,                       /* dialog: up ReqQryOrder, down RspQryOrder */
    FTD_TID_QRY_TRADE = 0x0007,                       /* dialog: up ReqQryTrade, down RspQryTrade */
    FTD_TID_QRY_DEPOSIT = 0x0008,                     /* dialog: up ReqQryDeposit, down RspQryDeposit */
    FTD_TID_QRY_P_POSITION = 0x0009,                  /* dialog: up ReqQryPPosition, down RspQryPPosition */
    FTD_TID_QRY_POSITION = 0x000A,                    /* dialog: up ReqQryPosition, down RspQryPosition */
    FTD_TID_QRY_MARKET = 0x000B,                      /* dialog: up ReqQryMarket, down RspQryMarket */
    FTD_TID_QRY_CLIENT = 0x000C,                      /* dialog: up ReqQryClient, down RspQryClient */
    FTD_TID_QRY_MARKET_STATUS = 0x000D,               /* dialog: up ReqQryMarketStatus, down RspQryMarketStatus */
    FTD_TID_QRY_INSTRUMENT_STATUS = 0x000E, /* dialog: up ReqQryInstrumentStatus, down RspQryInstrumentStatus */
    FTD_TID_QRY_MARKET_ORDER_DATA = 0x0012,           /* dialog: up ReqQryMarketOrderData, down RspQryMarketOrderData */
    FTD_TID_QRY_PARTICIPANT = 0x0013,                 /* dialog: up ReqQryParticipant, down RspQryParticipant */
    FTD_TID_QRY_USER = 0x0014,                        /* dialog: up ReqQryUser, down RspQryUser */
    FTD_TID_QRY_USER_LOGIN = 0x0015,                  /* dialog: up ReqQryUserLogin, down RspQryUserLogin */
    FTD_TID_USER_LOGIN = 0x0016,                      /* management: up ReqUserLogin, down RspUserLogin */
    FTD_TID_USER_LOGOUT = 0x0017,                     /* management: up ReqUserLogout, down RspUserLogout */
    FTD_TID_USER_PASSWORD_UPDATE = 0x0018,            /* dialog: up ReqUserPasswordUpdate, down RspUserPasswordUpdate */
    FTD_TID_TRADE_INSERT_SINGLE = 0x1001,             /* private: down TradeInsertSingle */
    FTD_TID_PARTICIPANT_BULLETIN = 0x1002,            /* private: down ParticipantBulletin */
    FTD_TID_ORDER_CONFIRMATION = 0x1003,              /* private: down OrderConfirmation */
    FTD_TID_FORCE_EXIT = 0x1005,                      /* management: down ForceExit */
    FTD_TID_MARKET_ORDER_INC_DATA = 0x2001,           /* broadcast: down MarketOrderIncData */
    FTD_TID_MARKET_MATCH_INC_DATA = 0x2002,           /* broadcast: down MarketMatchIncData */
    FTD_TID_MARKET_BULLETIN = 0x2003,                 /* broadcast: down MarketBulletin */
    FTD_TID_MARKET_MATCH_DATA = 0x2004,               /* broadcast: down MarketMatchData */
    FTD_TID_MARKET_STATUS_CHANGE_NOTIFY = 0x2005,     /* broadcast: down MarketStatusChangeNotify */
    FTD_TID_INSTRUMENT_STATUS_CHANGE_NOTIFY = 0x2006, /* broadcast: down InstrumentStatusChangeNotify */
    FTD_TID_INSTRUMENT_CHANGE_NOTIFY = 0x2007         /* broadcast: down InstrumentChangeNotify */
};

/* FIDs (Appendix D). */
enum ftd_fid {
    FTD_FID_BULLETIN = 0x0001,                  /* BulletinField: 8 items, 822 bytes */
    FTD_FID_CLIENT = 0x0002,                    /* ClientField: 5 items, 98 bytes */
    FTD_FID_DEPOSIT = 0x0003,                   /* DepositField: 27 items, 353 bytes */
    FTD_FID_DISSEMINATIONSTART = 0x0004,        /* DisseminationstartField: 2 items, 6 bytes */
    FTD_FID_ERROR = 0x0005,                     /* ErrorField: 3 items, 130 bytes */
    FTD_FID_FORCE_EXIT = 0x0006,                /* ForceExitField: 2 items, 101 bytes */
    FTD_FID_INSTRUMENT = 0x0007,                /* InstrumentField: 26 items, 201 bytes */
    FTD_FID_INSTRUMENT_STATUS = 0x0008,         /* InstrumentStatusField: 2 items, 11 bytes */
    FTD_FID_MARKET_STATUS = 0x0009,             /* MarketStatusField: 3 items, 15 bytes */
    FTD_FID_MARKET_MATCH_INC_DATA = 0x000A,     /* MarketMatchIncDataField: 6 items, 29 bytes */
    FTD_FID_ORDER_ACTION = 0x000B,              /* OrderActionField: 6 items, 71 bytes */
    FTD_FID_ORDER_INSERT = 0x000C,              /* OrderInsertField: 20 items, 158 bytes */
    FTD_FID_MARKET_ORDER_DATA = 0x000D,         /* MarketOrderDataField: 7 items, 33 bytes */
    FTD_FID_ORDER_STATUS = 0x000E,              /* OrderStatusField: 30 items, 254 bytes */
    FTD_FID_PARTICIPANT = 0x000F,               /* ParticipantField: 4 items, 90 bytes */
    FTD_FID_POSITION = 0x0010,                  /* PositionField: 37 items, 163 bytes */
    FTD_FID_P_POSITION = 0x0011,                /* PPositionField: 36 items, 155 bytes */
    FTD_FID_MARKET_MATCH_DATA_CHG = 0x0012,     /* MarketMatchDataChgField: 12 items, 99 bytes */
    FTD_FID_MARKET_MATCH_DATA = 0x0013,         /* MarketMatchDataField: 30 items, 252 bytes */
    FTD_FID_REQ_QRY_CLIENT = 0x0014,            /* ReqQryClientField: 2 items, 16 bytes */
    FTD_FID_REQ_QRY_DEPOSIT = 0x0015,           /* ReqQryDepositField: 1 items, 8 bytes */
    FTD_FID_REQ_QRY_INSTRUMENT = 0x0016,        /* ReqQryInstrumentField: 2 items, 20 bytes */
    FTD_FID_REQ_QRY_INSTRUMENT_STATUS = 0x0017, /* ReqQryInstrumentStatusField: 2 items, 20 bytes */
    FTD_FID_REQ_QRY_MARKET = 0x0018,            /* ReqQryMarketField: 1 items, 10 bytes */
    FTD_FID_REQ_QRY_MARKET_STATUS = 0x0019,     /* ReqQryMarketStatusField: 1 items, 10 bytes */
    FTD_FID_REQ_QRY_ORDER = 0x001A,             /* ReqQryOrderField: 6 items, 62 bytes */
    FTD_FID_REQ_QRY_MARKET_ORDER_DATA = 0x001B, /* ReqQryMarketOrderDataField: 2 items, 11 bytes */
    FTD_FID_REQ_QRY_PARTICIPANT = 0x001C,       /* ReqQryParticipantField: 1 items, 8 bytes */
    FTD_FID_REQ_QRY_POSITION = 0x001D,          /* ReqQryPositionField: 3 items, 26 bytes */
    FTD_FID_REQ_QRY_P_POSITION = 0x001E,        /* ReqQryPPositionField: 2 items, 18 bytes */
    FTD_FID_REQ_QRY_MARKET_MATCH_DATA = 0x001F, /* ReqQryMarketMatchDataField: 1 items, 10 bytes */
    FTD_FID_REQ_QRY_TRADE = 0x0020,             /* ReqQryTradeField: 8 items, 78 bytes */
    FTD_FID_REQ_QRY_USER = 0x0021,              /* ReqQryUserField: 2 items, 23 bytes */
    FTD_FID_REQ_QRY_USER_LOGIN = 0x0022,        /* ReqQryUserLoginField: 2 items, 23 bytes */
    FTD_FID_REQ_USER_LOGIN = 0x0023,            /* ReqUserLoginField: 9 items, 120 bytes */
    FTD_FID_REQ_USER_LOGOUT = 0x0024,           /* ReqUserLogoutField: 3 items, 24 bytes */
    FTD_FID_REQ_USER_PASSWORD_UPDATE = 0x0025,  /* ReqUserPasswordUpdateField: 4 items, 103 bytes */
    FTD_FID_MARKET = 0x0026,                    /* MarketField: 4 items, 93 bytes */
    FTD_FID_RSP_USER_LOGIN = 0x0027,            /* RspUserLoginField: 8 items, 131 bytes */
    FTD_FID_RSP_USER_LOGOUT = 0x0028,           /* RspUserLogoutField: 4 items, 44 bytes */
    FTD_FID_RSP_USER_PASSWORD_UPDATE = 0x0029,  /* RspUserPasswordUpdateField: 3 items, 63 bytes */
    FTD_FID_TRADE_INSERT_SINGLE = 0x002A,       /* TradeInsertSingleField: 19 items, 166 bytes */
    FTD_FID_USER = 0x002B,                      /* UserField: 6 items, 46 bytes */
    FTD_FID_USER_LOGIN = 0x002C,                /* UserLoginField: 13 items, 186 bytes */
    FTD_FID_ERROR_TARGET_ORDER = 0x002D,        /* ErrorTargetOrderField: 2 items, 44 bytes */
    FTD_FID_ERROR_TARGET_SEQUENCE = 0x002E      /* ErrorTargetSequenceField: 2 items, 6 bytes */
};

/* The items of each field (Appendix D), by their place, as ftd_read_item and ftd_write_item count
 * them. Behind each: offset in the field's bytes, width, kind, type. */

/* BulletinField, FID 0x0001. */
enum ftd_item_bulletin {
    FTD_ITEM_BULLETIN_NEWS_TYPE = 0,    /* at 0, width 3: text, FTDNewsType */
    FTD_ITEM_BULLETIN_NEWS_URGENCY = 1, /* at 3, width 1: char, FTDNewsUrgency */
    FTD_ITEM_BULLETIN_SEND_TIME = 2,    /* at 4, width 8: text, FTDTime */
    FTD_ITEM_BULLETIN_ABSTRACT = 3,     /* at 12, width 80: text, FTDStringType<80> */
    FTD_ITEM_BULLETIN_COME_FROM = 4,    /* at 92, width 20: text, FTDStringType<20> */
    FTD_ITEM_BULLETIN_MARKET_ID = 5,    /* at 112, width 10: text, FTDMarketId */
    FTD_ITEM_BULLETIN_CONTENT = 6,      /* at 122, width 500: text, FTDStringType<500> */
    FTD_ITEM_BULLETIN_URL_LINK = 7      /* at 622, width 200: text, FTDStringType<200> */
};

/* ClientField, FID 0x0002. */
enum ftd_item_client {
    FTD_ITEM_CLIENT_CLIENT_ID = 0,      /* at 0, width 8: text, FTDClientId */
    FTD_ITEM_CLIENT_PARTICIPANT_ID = 1, /* at 8, width 8: text, FTDParticipantId */
    FTD_ITEM_CLIENT_CLIENT_NAME = 2,    /* at 16, width 80: text, FTDName */
    FTD_ITEM_CLIENT_CLIENT_TYPE = 3,    /* at 96, width 1: char, FTDClientType */
    FTD_ITEM_CLIENT_TRADE_RIGHTS = 4    /* at 97, width 1: char, FTDTradeRight */
};

/* DepositField, FID 0x0003. */
enum ftd_item_deposit {
    FTD_ITEM_DEPOSIT_PARTICIPANT_ID = 0,               /* at 0, width 8: text, FTDParticipantId */
    FTD_ITEM_DEPOSIT_PARTICIPANT_TYPE = 1,             /* at 8, width 1: char, FTDParticipantType */
    FTD_ITEM_DEPOSIT_TRADE_DATE = 2,                   /* at 9, width 8: date, FTDDate */
    FTD_ITEM_DEPOSIT_INIT_MARGIN = 3,                  /* at 17, width 14: float, 2 decimals, FTDValue */
    FTD_ITEM_DEPOSIT_BUY_SPEC_OPEN_USED_MARGIN = 4,    /* at 31, width 14: float, 2 decimals, FTDValue */
    FTD_ITEM_DEPOSIT_BUY_HEDGE_OPEN_USED_MARGIN = 5,   /* at 45, width 14: float, 2 decimals, FTDValue */
    FTD_ITEM_DEPOSIT_SELL_SPEC_OPEN_USED_MARGIN = 6,   /* at 59, width 14: float, 2 decimals, FTDValue */
    FTD_ITEM_DEPOSIT_SELL_HEDGE_OPEN_USED_MARGIN = 7,  /* at 73, width 14: float, 2 decimals, FTDValue */
    FTD_ITEM_DEPOSIT_BUY_SPEC_OFFSET_PROFIT = 8,       /* at 87, width 14: float, 2 decimals, FTDValue */
    FTD_ITEM_DEPOSIT_BUY_HEDGE_OFFSET_PROFIT = 9,      /* at 101, width 14: float, 2 decimals, FTDValue */
    FTD_ITEM_DEPOSIT_SELL_SPEC_OFFSET_PROFIT = 10,     /* at 115, width 14: float, 2 decimals, FTDValue */
    FTD_ITEM_DEPOSIT_SELL_HEDGE_OFFSET_PROFIT = 11,    /* at 129, width 14: float, 2 decimals, FTDValue */
    FTD_ITEM_DEPOSIT_BUY_SPEC_OPEN_FROZ_MARGIN = 12,   /* at 143, width 14: float, 2 decimals, FTDValue */
    FTD_ITEM_DEPOSIT_BUY_HEDGE_OPEN_FROZ_MARGIN = 13,  /* at 157, width 14: float, 2 decimals, FTDValue */
    FTD_ITEM_DEPOSIT_SELL_SPEC_OPEN_FROZ_MARGIN = 14,  /* at 171, width 14: float, 2 decimals, FTDValue */
    FTD_ITEM_DEPOSIT_SELL_HEDGE_OPEN_FROZ_MARGIN = 15, /* at 185, width 14: float, 2 decimals, FTDValue */
    FTD_ITEM_DEPOSIT_BUY_SPEC_OFFSET_MARGIN = 16,      /* at 199, width 14: float, 2 decimals, FTDValue */
    FTD_ITEM_DEPOSIT_BUY_HEDGE_OFFSET_MARGIN = 17,     /* at 213, width 14: float, 2 decimals, FTDValue */
    FTD_ITEM_DEPOSIT_SELL_SPEC_OFFSET_MARGIN = 18,     /* at 227, width 14: float, 2 decimals, FTDValue */
    FTD_ITEM_DEPOSIT_SELL_HEDGE_OFFSET_MARGIN = 19,    /* at 241, width 14: float, 2 decimals, FTDValue */
    FTD_ITEM_DEPOSIT_BUY_SPEC_TURN_OVER = 20,          /* at 255, width 14: float, 2 decimals, FTDValue */
    FTD_ITEM_DEPOSIT_BUY_HEDGE_TURN_OVER = 21,         /* at 269, width 14: float, 2 decimals, FTDValue */
    FTD_ITEM_DEPOSIT_SELL_SPEC_TURN_OVER = 22,         /* at 283, width 14: float, 2 decimals, FTDValue */
    FTD_ITEM_DEPOSIT_SELL_HEDGE_TURN_OVER = 23,        /* at 297, width 14: float, 2 decimals, FTDValue */
    FTD_ITEM_DEPOSIT_ADD_VALUE = 24,                   /* at 311, width 14: float, 2 decimals, FTDValue */
    FTD_ITEM_DEPOSIT_DEL_VALUE = 25,                   /* at 325, width 14: float, 2 decimals, FTDValue */
    FTD_ITEM_DEPOSIT_BALANCE_VALUE = 26                /* at 339, width 14: float, 2 decimals, FTDValue */
};

/* DisseminationstartField, FID 0x0004. */
enum ftd_item_disseminationstart {
    FTD_ITEM_DISSEMINATIONSTART_SEQUENCE_SERIES = 0, /* at 0, width 2: word, FTDSequenceSeries */
    FTD_ITEM_DISSEMINATIONSTART_SEQUENCE_NO = 1      /* at 2, width 4: int, FTDSequenceNo */
};

/* ErrorField, FID 0x0005. */
enum ftd_item_error {
    FTD_ITEM_ERROR_ERROR_CODE = 0, /* at 0, width 10: text, FTDErrorCode */
    FTD_ITEM_ERROR_ERROR_TEXT = 1, /* at 10, width 100: text, FTDStringType<100> */
    FTD_ITEM_ERROR_TIME_STAMP = 2  /* at 110, width 20: text, FTDTimeStamp */
};

/* ForceExitField, FID 0x0006. */
enum ftd_item_force_exit {
    FTD_ITEM_FORCE_EXIT_FORCE_EXIT_CODE = 0, /* at 0, width 1: char, FTDForceExitCode */
    FTD_ITEM_FORCE_EXIT_FORCE_EXIT_MSG = 1   /* at 1, width 100: text, FTDStringType<100> */
};

/* InstrumentField, FID 0x0007. */
enum ftd_item_instrument {
    FTD_ITEM_INSTRUMENT_MARKET_ID = 0,          /* at 0, width 10: text, FTDMarketId */
    FTD_ITEM_INSTRUMENT_INSTRUMENT_ID = 1,      /* at 10, width 10: text, FTDInstrumentId */
    FTD_ITEM_INSTRUMENT_INSTRUMENT_VERSION = 2, /* at 20, width 1: char, FTDInstrumentVersion */
    FTD_ITEM_INSTRUMENT_INSTRUMENT_NAME = 3,    /* at 21, width 80: text, FTDName */
    FTD_ITEM_INSTRUMENT_SHORT_CUT_KEY = 4,      /* at 101, width 1: char, FTDCharType */
    FTD_ITEM_INSTRUMENT_START_TRD_DATE = 5,     /* at 102, width 8: date, FTDDate */
    FTD_ITEM_INSTRUMENT_END_TRD_DATE = 6,       /* at 110, width 8: date, FTDDate */
    FTD_ITEM_INSTRUMENT_INSTRUMENT_TYPE = 7,    /* at 118, width 1: char, FTDInstrumentType */
    FTD_ITEM_INSTRUMENT_END_DELV_DATE = 8,      /* at 119, width 8: date, FTDDate */
    FTD_ITEM_INSTRUMENT_START_DELV_DATE = 9,    /* at 127, width 8: date, FTDDate */
    FTD_ITEM_INSTRUMENT_INSTR_STOP_CODE = 10,   /* at 135, width 1: char, FTDStopCode */
    FTD_ITEM_INSTRUMENT_CURRENCY = 11,          /* at 136, width 3: text, FTDStringType<3> */
    FTD_ITEM_INSTRUMENT_TRADE_RIGHTS = 12,      /* at 139, width 1: char, FTDTradeRight */
    FTD_ITEM_INSTRUMENT_FUSE_RIGHTS = 13,       /* at 140, width 1: char, FTDBoolFlag */
    FTD_ITEM_INSTRUMENT_UNIT = 14,              /* at 141, width 4: int, FTDIntType */
    FTD_ITEM_INSTRUMENT_TICK = 15,              /* at 145, width 12: float, 4 decimals, FTDPrice */
    FTD_ITEM_INSTRUMENT_HIGH_LIMIT_RATE = 16,   /* at 157, width 4: float, 2 decimals, FTDPercent */
    FTD_ITEM_INSTRUMENT_LOW_LIMIT_RATE = 17,    /* at 161, width 4: float, 2 decimals, FTDPercent */
    FTD_ITEM_INSTRUMENT_MAX_LOT = 18,           /* at 165, width 4: int, FTDVolume */
    FTD_ITEM_INSTRUMENT_MIN_LOT = 19,           /* at 169, width 4: int, FTDVolume */
    FTD_ITEM_INSTRUMENT_PUBSTYLE = 20,          /* at 173, width 1: char, FTDPubStyle */
    FTD_ITEM_INSTRUMENT_FUSELIMIT = 21,         /* at 174, width 12: float, 4 decimals, FTDPrice */
    FTD_ITEM_INSTRUMENT_FUSEPERSISTTIME = 22,   /* at 186, width 4: int, FTDIntType */
    FTD_ITEM_INSTRUMENT_FUSEPOINT = 23,         /* at 190, width 6: text, FTDStringType<6> */
    FTD_ITEM_INSTRUMENT_FUSE_FLAG = 24,         /* at 196, width 1: char, FTDBoolFlag */
    FTD_ITEM_INSTRUMENT_FORCEDISTIME = 25       /* at 197, width 4: int, FTDIntType */
};

/* InstrumentStatusField, FID 0x0008. */
enum ftd_item_instrument_status {
    FTD_ITEM_INSTRUMENT_STATUS_INSTRUMENT_ID = 0,     /* at 0, width 10: text, FTDInstrumentId */
    FTD_ITEM_INSTRUMENT_STATUS_INSTRUMENT_STATUS = 1  /* at 10, width 1: char, FTDInstrumentStatus */
};

/* MarketStatusField, FID 0x0009. */
enum ftd_item_market_status {
    FTD_ITEM_MARKET_STATUS_MARKET_ID = 0,             /* at 0, width 10: text, FTDMarketId */
    FTD_ITEM_MARKET_STATUS_MARKET_STATUS_ID = 1,      /* at 10, width 1: char, FTDMarketStatus */
    FTD_ITEM_MARKET_STATUS_BROADCAST_SEQUENCE_NO = 2  /* at 11, width 4: int, FTDIntType */
};

/* MarketMatchIncDataField, FID 0x000A. */
enum ftd_item_market_match_inc_data {
    FTD_ITEM_MARKET_MATCH_INC_DATA_INSTRUMENT_ID = 0,      /* at 0, width 10: text, FTDInstrumentId */
    FTD_ITEM_MARKET_MATCH_INC_DATA_INSTRUMENT_VERSION = 1, /* at 10, width 1: char, FTDInstrumentVersion */
    FTD_ITEM_MARKET_MATCH_INC_DATA_VOLUME_TYPE = 2,        /* at 11, width 1: char, FTDVolumeType */
    FTD_ITEM_MARKET_MATCH_INC_DATA_PRICE = 3,              /* at 12, width 12: float, 4 decimals, FTDPrice */
    FTD_ITEM_MARKET_MATCH_INC_DATA_VOLUME = 4,             /* at 24, width 4: int, FTDVolume */
    FTD_ITEM_MARKET_MATCH_INC_DATA_MATCH_FLAG = 5          /* at 28, width 1: char, FTDMatchFlag */
};

/* OrderActionField, FID 0x000B. */
enum ftd_item_order_action {
    FTD_ITEM_ORDER_ACTION_ORDER_ACTION_CODE = 0,  /* at 0, width 1: char, FTDActionFlag */
    FTD_ITEM_ORDER_ACTION_ORDER_SYS_ID = 1,       /* at 1, width 20: text, FTDSysOrderId */
    FTD_ITEM_ORDER_ACTION_ACTION_LOCAL_ID = 2,    /* at 21, width 24: text, FTDLocalId */
    FTD_ITEM_ORDER_ACTION_INSTRUMENT_ID = 3,      /* at 45, width 10: text, FTDInstrumentId */
    FTD_ITEM_ORDER_ACTION_INSTRUMENT_VERSION = 4, /* at 55, width 1: char, FTDInstrumentVersion */
    FTD_ITEM_ORDER_ACTION_USER_ID = 5             /* at 56, width 15: text, FTDUserId */
};

/* OrderInsertField, FID 0x000C. */
enum ftd_item_order_insert {
    FTD_ITEM_ORDER_INSERT_ORDER_SYS_ID = 0,           /* at 0, width 20: text, FTDSysOrderId */
    FTD_ITEM_ORDER_INSERT_ORDER_LOCAL_ID = 1,         /* at 20, width 24: text, FTDLocalId */
    FTD_ITEM_ORDER_INSERT_USER_ID = 2,                /* at 44, width 15: text, FTDUserId */
    FTD_ITEM_ORDER_INSERT_PARTICIPANT_ID = 3,         /* at 59, width 8: text, FTDParticipantId */
    FTD_ITEM_ORDER_INSERT_CLIENT_ID = 4,              /* at 67, width 8: text, FTDClientId */
    FTD_ITEM_ORDER_INSERT_INSTRUMENT_ID = 5,          /* at 75, width 10: text, FTDInstrumentId */
    FTD_ITEM_ORDER_INSERT_DIRECTION = 6,              /* at 85, width 1: char, FTDDirection */
    FTD_ITEM_ORDER_INSERT_OFFSET_FLAG = 7,            /* at 86, width 1: char, FTDOffsetFlag */
    FTD_ITEM_ORDER_INSERT_HEDGE_FLAG = 8,             /* at 87, width 1: char, FTDHedgeFlag */
    FTD_ITEM_ORDER_INSERT_STOP_PRICE = 9,             /* at 88, width 12: float, 4 decimals, FTDPrice */
    FTD_ITEM_ORDER_INSERT_LIMIT_PRICE = 10,           /* at 100, width 12: float, 4 decimals, FTDPrice */
    FTD_ITEM_ORDER_INSERT_VOLUME_TOTAL_ORIGINAL = 11, /* at 112, width 4: int, FTDIntType */
    FTD_ITEM_ORDER_INSERT_ORDER_TYPE = 12,            /* at 116, width 1: char, FTDOrderType */
    FTD_ITEM_ORDER_INSERT_MATCH_CONDITION = 13,       /* at 117, width 1: char, FTDMatchCondition */
    FTD_ITEM_ORDER_INSERT_MATCH_SESSION = 14,         /* at 118, width 1: char, FTDMatchSession */
    FTD_ITEM_ORDER_INSERT_VALID_THROUGH = 15,         /* at 119, width 8: date, FTDDate */
    FTD_ITEM_ORDER_INSERT_MINIMAL_VOLUME = 16,        /* at 127, width 4: int, FTDVolume */
    FTD_ITEM_ORDER_INSERT_AUTO_SUSPEND = 17,          /* at 131, width 1: char, FTDBoolFlag */
    FTD_ITEM_ORDER_INSERT_INSERT_TIME = 18,           /* at 132, width 20: text, FTDDateTime */
    FTD_ITEM_ORDER_INSERT_MESSAGE_REFERENCE = 19      /* at 152, width 6: text, FTDMsgRef */
};

/* MarketOrderDataField, FID 0x000D. */
enum ftd_item_market_order_data {
    FTD_ITEM_MARKET_ORDER_DATA_INSTRUMENT_ID = 0,         /* at 0, width 10: text, FTDInstrumentId */
    FTD_ITEM_MARKET_ORDER_DATA_INSTRUMENT_VERSION = 1,    /* at 10, width 1: char, FTDInstrumentVersion */
    FTD_ITEM_MARKET_ORDER_DATA_VOLUME_TYPE = 2,           /* at 11, width 1: char, FTDVolumeType */
    FTD_ITEM_MARKET_ORDER_DATA_DIRECTION = 3,             /* at 12, width 1: char, FTDDirection */
    FTD_ITEM_MARKET_ORDER_DATA_PRICE = 4,                 /* at 13, width 12: float, 4 decimals, FTDPrice */
    FTD_ITEM_MARKET_ORDER_DATA_VOLUME = 5,                /* at 25, width 4: int, FTDVolume */
    FTD_ITEM_MARKET_ORDER_DATA_BROADCAST_SEQUENCE_NO = 6  /* at 29, width 4: int, FTDIntType */
};

/* OrderStatusField, FID 0x000E. */
enum ftd_item_order_status {
    FTD_ITEM_ORDER_STATUS_ORDER_SYS_ID = 0,           /* at 0, width 20: text, FTDSysOrderId */
    FTD_ITEM_ORDER_STATUS_ORDER_LOCAL_ID = 1,         /* at 20, width 24: text, FTDLocalId */
    FTD_ITEM_ORDER_STATUS_USER_ID = 2,                /* at 44, width 15: text, FTDUserId */
    FTD_ITEM_ORDER_STATUS_PARTICIPANT_ID = 3,         /* at 59, width 8: text, FTDParticipantId */
    FTD_ITEM_ORDER_STATUS_CLIENT_ID = 4,              /* at 67, width 8: text, FTDClientId */
    FTD_ITEM_ORDER_STATUS_INSTRUMENT_ID = 5,          /* at 75, width 10: text, FTDInstrumentId */
    FTD_ITEM_ORDER_STATUS_DIRECTION = 6,              /* at 85, width 1: char, FTDDirection */
    FTD_ITEM_ORDER_STATUS_OFFSET_FLAG = 7,            /* at 86, width 1: char, FTDOffsetFlag */
    FTD_ITEM_ORDER_STATUS_HEDGE_FLAG = 8,             /* at 87, width 1: char, FTDHedgeFlag */
    FTD_ITEM_ORDER_STATUS_STOP_PRICE = 9,             /* at 88, width 12: float, 4 decimals, FTDPrice */
    FTD_ITEM_ORDER_STATUS_LIMIT_PRICE = 10,           /* at 100, width 12: float, 4 decimals, FTDPrice */
    FTD_ITEM_ORDER_STATUS_VOLUME_TOTAL_ORIGINAL = 11, /* at 112, width 4: int, FTDIntType */
    FTD_ITEM_ORDER_STATUS_ORDER_TYPE = 12,            /* at 116, width 1: char, FTDOrderType */
    FTD_ITEM_ORDER_STATUS_VOLUME_TOTAL = 13,          /* at 117, width 4: int, FTDIntType */
    FTD_ITEM_ORDER_STATUS_MATCH_CONDITION = 14,       /* at 121, width 1: char, FTDMatchCondition */
    FTD_ITEM_ORDER_STATUS_MATCH_SESSION = 15,         /* at 122, width 1: char, FTDMatchSession */
    FTD_ITEM_ORDER_STATUS_VALID_THROUGH = 16,         /* at 123, width 8: date, FTDDate */
    FTD_ITEM_ORDER_STATUS_MINIMAL_VOLUME = 17,        /* at 131, width 4: int, FTDVolume */
    FTD_ITEM_ORDER_STATUS_AUTO_SUSPEND = 18,          /* at 135, width 1: char, FTDBoolFlag */
    FTD_ITEM_ORDER_STATUS_ORDER_STATUS = 19,          /* at 136, width 1: char, FTDOrderStatus */
    FTD_ITEM_ORDER_STATUS_INSERT_TIME = 20,           /* at 137, width 20: text, FTDDateTime */
    FTD_ITEM_ORDER_STATUS_ACTIVE_TIME = 21,           /* at 157, width 8: text, FTDTime */
    FTD_ITEM_ORDER_STATUS_SUSPEND_TIME = 22,          /* at 165, width 8: text, FTDTime */
    FTD_ITEM_ORDER_STATUS_UPDATE_TIME = 23,           /* at 173, width 8: text, FTDTime */
    FTD_ITEM_ORDER_STATUS_ACTIVE_USER_ID = 24,        /* at 181, width 15: text, FTDUserId */
    FTD_ITEM_ORDER_STATUS_MARGIN = 25,                /* at 196, width 12: float, 4 decimals, FTDPrice */
    FTD_ITEM_ORDER_STATUS_FORCE_GROUP_ID = 26,        /* at 208, width 24: text, FTDLocalId */
    FTD_ITEM_ORDER_STATUS_TRADE_PRICE = 27,           /* at 232, width 12: float, 4 decimals, FTDPrice */
    FTD_ITEM_ORDER_STATUS_TRADE_VOLUME = 28,          /* at 244, width 4: int, FTDIntType */
    FTD_ITEM_ORDER_STATUS_MESSAGE_REFERENCE = 29      /* at 248, width 6: text, FTDMsgRef */
};

/* ParticipantField, FID 0x000F. */
enum ftd_item_participant {
    FTD_ITEM_PARTICIPANT_PARTICIPANT_ID = 0,   /* at 0, width 8: text, FTDParticipantId */
    FTD_ITEM_PARTICIPANT_PARTICIPANT_NAME = 1, /* at 8, width 80: text, FTDName */
    FTD_ITEM_PARTICIPANT_PARTICIPANT_TYPE = 2, /* at 88, width 1: char, FTDParticipantType */
    FTD_ITEM_PARTICIPANT_PARTI_TRD_RIGHT = 3   /* at 89, width 1: char, FTDTradeRight */
};

/* PositionField, FID 0x0010. */
enum ftd_item_position {
    FTD_ITEM_POSITION_PARTICIPANT_ID = 0,                 /* at 0, width 8: text, FTDParticipantId */
    FTD_ITEM_POSITION_CLIENT_ID = 1,                      /* at 8, width 8: text, FTDClientId */
    FTD_ITEM_POSITION_INSTRUMENT_ID = 2,                  /* at 16, width 10: text, FTDInstrumentId */
    FTD_ITEM_POSITION_INSTRUMENT_VERSION = 3,             /* at 26, width 1: char, FTDInstrumentVersion */
    FTD_ITEM_POSITION_TRADE_DATE = 4,                     /* at 27, width 8: date, FTDDate */
    FTD_ITEM_POSITION_YD_BUY_HEDGE_POSITION = 5,          /* at 35, width 4: int, FTDVolume */
    FTD_ITEM_POSITION_YD_BUY_SPEC_POSITION = 6,           /* at 39, width 4: int, FTDVolume */
    FTD_ITEM_POSITION_YD_SELL_HEDGE_POSITION = 7,         /* at 43, width 4: int, FTDVolume */
    FTD_ITEM_POSITION_YD_SELL_SPEC_POSITION = 8,          /* at 47, width 4: int, FTDVolume */
    FTD_ITEM_POSITION_BUY_HEDGE_VOLUME = 9,               /* at 51, width 4: int, FTDVolume */
    FTD_ITEM_POSITION_BUY_SPEC_VOLUME = 10,               /* at 55, width 4: int, FTDVolume */
    FTD_ITEM_POSITION_SELL_HEDGE_VOLUME = 11,             /* at 59, width 4: int, FTDVolume */
    FTD_ITEM_POSITION_SELL_SPEC_VOLUME = 12,              /* at 63, width 4: int, FTDVolume */
    FTD_ITEM_POSITION_BUY_HEDGE_POSITION = 13,            /* at 67, width 4: int, FTDVolume */
    FTD_ITEM_POSITION_BUY_SPEC_POSITION = 14,             /* at 71, width 4: int, FTDVolume */
    FTD_ITEM_POSITION_SELL_HEDGE_POSITION = 15,           /* at 75, width 4: int, FTDVolume */
    FTD_ITEM_POSITION_SELL_SPEC_POSITION = 16,            /* at 79, width 4: int, FTDVolume */
    FTD_ITEM_POSITION_BUY_OFFS_H_POSITION = 17,           /* at 83, width 4: int, FTDVolume */
    FTD_ITEM_POSITION_BUY_OFFS_S_POSITION = 18,           /* at 87, width 4: int, FTDVolume */
    FTD_ITEM_POSITION_SELL_OFFS_H_POSITION = 19,          /* at 91, width 4: int, FTDVolume */
    FTD_ITEM_POSITION_SELL_OFFS_S_POSITION = 20,          /* at 95, width 4: int, FTDVolume */
    FTD_ITEM_POSITION_YD_BUY_OFFS_H_POSITION = 21,        /* at 99, width 4: int, FTDVolume */
    FTD_ITEM_POSITION_YD_BUY_OFFS_S_POSITION = 22,        /* at 103, width 4: int, FTDVolume */
    FTD_ITEM_POSITION_YD_SELL_OFFS_H_POSITION = 23,       /* at 107, width 4: int, FTDVolume */
    FTD_ITEM_POSITION_YD_SELL_OFFS_S_POSITION = 24,       /* at 111, width 4: int, FTDVolume */
    FTD_ITEM_POSITION_LONG_OPEN_FROZ_H_POSITION = 25,     /* at 115, width 4: int, FTDVolume */
    FTD_ITEM_POSITION_LONG_OPEN_FROZ_S_POSITION = 26,     /* at 119, width 4: int, FTDVolume */
    FTD_ITEM_POSITION_SHORT_OPEN_FROZ_H_POSITION = 27,    /* at 123, width 4: int, FTDVolume */
    FTD_ITEM_POSITION_SHORT_OPEN_FROZ_S_POSITION = 28,    /* at 127, width 4: int, FTDVolume */
    FTD_ITEM_POSITION_LONG_OFFS_FROZ_H_POSITION = 29,     /* at 131, width 4: int, FTDVolume */
    FTD_ITEM_POSITION_LONG_OFFS_FROZ_S_POSITION = 30,     /* at 135, width 4: int, FTDVolume */
    FTD_ITEM_POSITION_SHORT_OFFS_FROZ_H_POSITION = 31,    /* at 139, width 4: int, FTDVolume */
    FTD_ITEM_POSITION_SHORT_OFFS_FROZ_S_POSITION = 32,    /* at 143, width 4: int, FTDVolume */
    FTD_ITEM_POSITION_YD_LONG_OFFS_FROZ_H_POSITION = 33,  /* at 147, width 4: int, FTDVolume */
    FTD_ITEM_POSITION_YD_LONG_OFFS_FROZ_S_POSITION = 34,  /* at 151, width 4: int, FTDVolume */
    FTD_ITEM_POSITION_YD_SHORT_OFFS_FROZ_H_POSITION = 35, /* at 155, width 4: int, FTDVolume */
    FTD_ITEM_POSITION_YD_SHORT_OFFS_FROZ_S_POSITION = 36  /* at 159, width 4: int, FTDVolume */
};

/* PPositionField, FID 0x0011. */
enum ftd_item_p_position {
    FTD_ITEM_P_POSITION_PARTICIPANT_ID = 0,                 /* at 0, width 8: text, FTDParticipantId */
    FTD_ITEM_P_POSITION_INSTRUMENT_ID = 1,                  /* at 8, width 10: text, FTDInstrumentId */
    FTD_ITEM_P_POSITION_INSTRUMENT_VERSION = 2,             /* at 18, width 1: char, FTDInstrumentVersion */
    FTD_ITEM_P_POSITION_TRADE_DATE = 3,                     /* at 19, width 8: date, FTDDate */
    FTD_ITEM_P_POSITION_YD_BUY_HEDGE_POSITION = 4,          /* at 27, width 4: int, FTDVolume */
    FTD_ITEM_P_POSITION_YD_BUY_SPEC_POSITION = 5,           /* at 31, width 4: int, FTDVolume */
    FTD_ITEM_P_POSITION_YD_SELL_HEDGE_POSITION = 6,         /* at 35, width 4: int, FTDVolume */
    FTD_ITEM_P_POSITION_YD_SELL_SPEC_POSITION = 7,          /* at 39, width 4: int, FTDVolume */
    FTD_ITEM_P_POSITION_BUY_HEDGE_VOLUME = 8,               /* at 43, width 4: int, FTDVolume */
    FTD_ITEM_P_POSITION_BUY_SPEC_VOLUME = 9,                /* at 47, width 4: int, FTDVolume */
    FTD_ITEM_P_POSITION_SELL_HEDGE_VOLUME = 10,             /* at 51, width 4: int, FTDVolume */
    FTD_ITEM_P_POSITION_SELL_SPEC_VOLUME = 11,              /* at 55, width 4: int, FTDVolume */
    FTD_ITEM_P_POSITION_BUY_HEDGE_POSITION = 12,            /* at 59, width 4: int, FTDVolume */
    FTD_ITEM_P_POSITION_BUY_SPEC_POSITION = 13,             /* at 63, width 4: int, FTDVolume */
    FTD_ITEM_P_POSITION_SELL_HEDGE_POSITION = 14,           /* at 67, width 4: int, FTDVolume */
    FTD_ITEM_P_POSITION_SELL_SPEC_POSITION = 15,            /* at 71, width 4: int, FTDVolume */
    FTD_ITEM_P_POSITION_BUY_OFFS_H_POSITION = 16,           /* at 75, width 4: int, FTDVolume */
    FTD_ITEM_P_POSITION_BUY_OFFS_S_POSITION = 17,           /* at 79, width 4: int, FTDVolume */
    FTD_ITEM_P_POSITION_SELL_OFFS_H_POSITION = 18,          /* at 83, width 4: int, FTDVolume */
    FTD_ITEM_P_POSITION_SELL_OFFS_S_POSITION = 19,          /* at 87, width 4: int, FTDVolume */
    FTD_ITEM_P_POSITION_YD_BUY_OFFS_H_POSITION = 20,        /* at 91, width 4: int, FTDVolume */
    FTD_ITEM_P_POSITION_YD_BUY_OFFS_S_POSITION = 21,        /* at 95, width 4: int, FTDVolume */
    FTD_ITEM_P_POSITION_YD_SELL_OFFS_H_POSITION = 22,       /* at 99, width 4: int, FTDVolume */
    FTD_ITEM_P_POSITION_YD_SELL_OFFS_S_POSITION = 23,       /* at 103, width 4: int, FTDVolume */
    FTD_ITEM_P_POSITION_LONG_OPEN_FROZ_H_POSITION = 24,     /* at 107, width 4: int, FTDVolume */
    FTD_ITEM_P_POSITION_LONG_OPEN_FROZ_S_POSITION = 25,     /* at 111, width 4: int, FTDVolume */
    FTD_ITEM_P_POSITION_SHORT_OPEN_FROZ_H_POSITION = 26,    /* at 115, width 4: int, FTDVolume */
    FTD_ITEM_P_POSITION_SHORT_OPEN_FROZ_S_POSITION = 27,    /* at 119, width 4: int, FTDVolume */
    FTD_ITEM_P_POSITION_LONG_OFFS_FROZ_H_POSITION = 28,     /* at 123, width 4: int, FTDVolume */
    FTD_ITEM_P_POSITION_LONG_OFFS_FROZ_S_POSITION = 29,     /* at 127, width 4: int, FTDVolume */
    FTD_ITEM_P_POSITION_SHORT_OFFS_FROZ_H_POSITION = 30,    /* at 131, width 4: int, FTDVolume */
    FTD_ITEM_P_POSITION_SHORT_OFFS_FROZ_S_POSITION = 31,    /* at 135, width 4: int, FTDVolume */
    FTD_ITEM_P_POSITION_YD_LONG_OFFS_FROZ_H_POSITION = 32,  /* at 139, width 4: int, FTDVolume */
    FTD_ITEM_P_POSITION_YD_LONG_OFFS_FROZ_S_POSITION = 33,  /* at 143, width 4: int, FTDVolume */
    FTD_ITEM_P_POSITION_YD_SHORT_OFFS_FROZ_H_POSITION = 34, /* at 147, width 4: int, FTDVolume */
    FTD_ITEM_P_POSITION_YD_SHORT_OFFS_FROZ_S_POSITION = 35  /* at 151, width 4: int, FTDVolume */
};

/* MarketMatchDataChgField, FID 0x0012. */
enum ftd_item_market_match_data_chg {
    FTD_ITEM_MARKET_MATCH_DATA_CHG_INSTRUMENT_ID = 0,      /* at 0, width 10: text, FTDInstrumentId */
    FTD_ITEM_MARKET_MATCH_DATA_CHG_INSTRUMENT_VERSION = 1, /* at 10, width 1: char, FTDInstrumentVersion */
    FTD_ITEM_MARKET_MATCH_DATA_CHG_OPEN_PRICE = 2,         /* at 11, width 12: float, 4 decimals, FTDPrice */
    FTD_ITEM_MARKET_MATCH_DATA_CHG_HIGH_PRICE = 3,         /* at 23, width 12: float, 4 decimals, FTDPrice */
    FTD_ITEM_MARKET_MATCH_DATA_CHG_LOW_PRICE = 4,          /* at 35, width 12: float, 4 decimals, FTDPrice */
    FTD_ITEM_MARKET_MATCH_DATA_CHG_LAST_PRICE = 5,         /* at 47, width 12: float, 4 decimals, FTDPrice */
    FTD_ITEM_MARKET_MATCH_DATA_CHG_BID_PRICE = 6,          /* at 59, width 12: float, 4 decimals, FTDPrice */
    FTD_ITEM_MARKET_MATCH_DATA_CHG_ASK_PRICE = 7,          /* at 71, width 12: float, 4 decimals, FTDPrice */
    FTD_ITEM_MARKET_MATCH_DATA_CHG_BID_LOT = 8,            /* at 83, width 4: int, FTDVolume */
    FTD_ITEM_MARKET_MATCH_DATA_CHG_ASK_LOT = 9,            /* at 87, width 4: int, FTDVolume */
    FTD_ITEM_MARKET_MATCH_DATA_CHG_VOLUME = 10,            /* at 91, width 4: int, FTDVolume */
    FTD_ITEM_MARKET_MATCH_DATA_CHG_OPEN_INTEREST = 11      /* at 95, width 4: int, FTDVolume */
};

/* MarketMatchDataField, FID 0x0013. */
enum ftd_item_market_match_data {
    FTD_ITEM_MARKET_MATCH_DATA_INSTRUMENT_ID = 0,             /* at 0, width 10: text, FTDInstrumentId */
    FTD_ITEM_MARKET_MATCH_DATA_INSTRUMENT_VERSION = 1,        /* at 10, width 1: char, FTDInstrumentVersion */
    FTD_ITEM_MARKET_MATCH_DATA_PRE_CLOSE = 2,                 /* at 11, width 12: float, 4 decimals, FTDPrice */
    FTD_ITEM_MARKET_MATCH_DATA_PRE_SETTLE = 3,                /* at 23, width 12: float, 4 decimals, FTDPrice */
    FTD_ITEM_MARKET_MATCH_DATA_PRE_OPEN_INTEREST = 4,         /* at 35, width 4: int, FTDVolume */
    FTD_ITEM_MARKET_MATCH_DATA_OPEN_PRICE = 5,                /* at 39, width 12: float, 4 decimals, FTDPrice */
    FTD_ITEM_MARKET_MATCH_DATA_BID_PRICE = 6,                 /* at 51, width 12: float, 4 decimals, FTDPrice */
    FTD_ITEM_MARKET_MATCH_DATA_BID_LOT = 7,                   /* at 63, width 4: int, FTDVolume */
    FTD_ITEM_MARKET_MATCH_DATA_ASK_PRICE = 8,                 /* at 67, width 12: float, 4 decimals, FTDPrice */
    FTD_ITEM_MARKET_MATCH_DATA_ASK_LOT = 9,                   /* at 79, width 4: int, FTDVolume */
    FTD_ITEM_MARKET_MATCH_DATA_LAST_PRICE = 10,               /* at 83, width 12: float, 4 decimals, FTDPrice */
    FTD_ITEM_MARKET_MATCH_DATA_LAST_LOT = 11,                 /* at 95, width 4: int, FTDVolume */
    FTD_ITEM_MARKET_MATCH_DATA_TRADE_LOT = 12,                /* at 99, width 4: int, FTDIntType */
    FTD_ITEM_MARKET_MATCH_DATA_TRADE_TURNOVER = 13,           /* at 103, width 4: int, FTDVolume */
    FTD_ITEM_MARKET_MATCH_DATA_OPEN_INTEREST = 14,            /* at 107, width 4: int, FTDVolume */
    FTD_ITEM_MARKET_MATCH_DATA_HIGH_PRICE = 15,               /* at 111, width 12: float, 4 decimals, FTDPrice */
    FTD_ITEM_MARKET_MATCH_DATA_LOW_PRICE = 16,                /* at 123, width 12: float, 4 decimals, FTDPrice */
    FTD_ITEM_MARKET_MATCH_DATA_CLOSE_PRICE = 17,              /* at 135, width 12: float, 4 decimals, FTDPrice */
    FTD_ITEM_MARKET_MATCH_DATA_SETTLE_PRICE = 18,             /* at 147, width 12: float, 4 decimals, FTDPrice */
    FTD_ITEM_MARKET_MATCH_DATA_CLEAR_PRICE = 19,              /* at 159, width 12: float, 4 decimals, FTDPrice */
    FTD_ITEM_MARKET_MATCH_DATA_AVERAGE_PRICE = 20,            /* at 171, width 12: float, 4 decimals, FTDPrice */
    FTD_ITEM_MARKET_MATCH_DATA_LIFE_HIGH = 21,                /* at 183, width 12: float, 4 decimals, FTDPrice */
    FTD_ITEM_MARKET_MATCH_DATA_LIFE_LOW = 22,                 /* at 195, width 12: float, 4 decimals, FTDPrice */
    FTD_ITEM_MARKET_MATCH_DATA_HIGH_LIMIT = 23,               /* at 207, width 12: float, 4 decimals, FTDPrice */
    FTD_ITEM_MARKET_MATCH_DATA_LOW_LIMIT = 24,                /* at 219, width 12: float, 4 decimals, FTDPrice */
    FTD_ITEM_MARKET_MATCH_DATA_TOTAL_VOLUME = 25,             /* at 231, width 4: int, FTDVolume */
    FTD_ITEM_MARKET_MATCH_DATA_UPDATE_TIME = 26,              /* at 235, width 8: text, FTDTime */
    FTD_ITEM_MARKET_MATCH_DATA_MARKET_MATCH_DATA_STATUS = 27, /* at 243, width 1: char, FTDBoolFlag */
    FTD_ITEM_MARKET_MATCH_DATA_TOTAL_MARKET_MATCH_DATA = 28,  /* at 244, width 4: int, FTDIntType */
    FTD_ITEM_MARKET_MATCH_DATA_BROADCAST_SEQUENCE_NO = 29     /* at 248, width 4: int, FTDIntType */
};

/* ReqQryClientField, FID 0x0014. */
enum ftd_item_req_qry_client {
    FTD_ITEM_REQ_QRY_CLIENT_PARTICIPANT_ID = 0, /* at 0, width 8: text, FTDParticipantId */
    FTD_ITEM_REQ_QRY_CLIENT_CLIENT_ID = 1       /* at 8, width 8: text, FTDClientId */
};

/* ReqQryDepositField, FID 0x0015. */
enum ftd_item_req_qry_deposit {
    FTD_ITEM_REQ_QRY_DEPOSIT_PARTICIPANT_ID = 0  /* at 0, width 8: text, FTDParticipantId */
};

/* ReqQryInstrumentField, FID 0x0016. */
enum ftd_item_req_qry_instrument {
    FTD_ITEM_REQ_QRY_INSTRUMENT_MARKET_ID = 0,     /* at 0, width 10: text, FTDMarketId */
    FTD_ITEM_REQ_QRY_INSTRUMENT_INSTRUMENT_ID = 1  /* at 10, width 10: text, FTDInstrumentId */
};

/* ReqQryInstrumentStatusField, FID 0x0017. */
enum ftd_item_req_qry_instrument_status {
    FTD_ITEM_REQ_QRY_INSTRUMENT_STATUS_MARKET_ID = 0,     /* at 0, width 10: text, FTDMarketId */
    FTD_ITEM_REQ_QRY_INSTRUMENT_STATUS_INSTRUMENT_ID = 1  /* at 10, width 10: text, FTDInstrumentId */
};

/* ReqQryMarketField, FID 0x0018. */
enum ftd_item_req_qry_market {
    FTD_ITEM_REQ_QRY_MARKET_MARKET_ID = 0  /* at 0, width 10: text, FTDMarketId */
};

/* ReqQryMarketStatusField, FID 0x0019. */
enum ftd_item_req_qry_market_status {
    FTD_ITEM_REQ_QRY_MARKET_STATUS_MARKET_ID = 0  /* at 0, width 10: text, FTDMarketId */
};

/* ReqQryOrderField, FID 0x001A. */
enum ftd_item_req_qry_order {
    FTD_ITEM_REQ_QRY_ORDER_INSTRUMENT_ID = 0,      /* at 0, width 10: text, FTDInstrumentId */
    FTD_ITEM_REQ_QRY_ORDER_INSTRUMENT_VERSION = 1, /* at 10, width 1: char, FTDInstrumentVersion */
    FTD_ITEM_REQ_QRY_ORDER_PARTICIPANT_ID = 2,     /* at 11, width 8: text, FTDParticipantId */
    FTD_ITEM_REQ_QRY_ORDER_USER_ID = 3,            /* at 19, width 15: text, FTDUserId */
    FTD_ITEM_REQ_QRY_ORDER_CLIENT_ID = 4,          /* at 34, width 8: text, FTDClientId */
    FTD_ITEM_REQ_QRY_ORDER_ORDER_SYS_ID = 5        /* at 42, width 20: text, FTDSysOrderId */
};

/* ReqQryMarketOrderDataField, FID 0x001B. */
enum ftd_item_req_qry_market_order_data {
    FTD_ITEM_REQ_QRY_MARKET_ORDER_DATA_INSTRUMENT_ID = 0, /* at 0, width 10: text, FTDInstrumentId */
    FTD_ITEM_REQ_QRY_MARKET_ORDER_DATA_DIRECTION = 1      /* at 10, width 1: char, FTDDirection */
};

/* ReqQryParticipantField, FID 0x001C. */
enum ftd_item_req_qry_participant {
    FTD_ITEM_REQ_QRY_PARTICIPANT_PARTICIPANT_ID = 0  /* at 0, width 8: text, FTDParticipantId */
};

/* ReqQryPositionField, FID 0x001D. */
enum ftd_item_req_qry_position {
    FTD_ITEM_REQ_QRY_POSITION_PARTICIPANT_ID = 0, /* at 0, width 8: text, FTDParticipantId */
    FTD_ITEM_REQ_QRY_POSITION_CLIENT_ID = 1,      /* at 8, width 8: text, FTDClientId */
    FTD_ITEM_REQ_QRY_POSITION_INSTRUMENT_ID = 2   /* at 16, width 10: text, FTDInstrumentId */
};

/* ReqQryPPositionField, FID 0x001E. */
enum ftd_item_req_qry_p_position {
    FTD_ITEM_REQ_QRY_P_POSITION_PARTICIPANT_ID = 0, /* at 0, width 8: text, FTDParticipantId */
    FTD_ITEM_REQ_QRY_P_POSITION_INSTRUMENT_ID = 1   /* at 8, width 10: text, FTDInstrumentId */
};

/* ReqQryMarketMatchDataField, FID 0x001F. */
enum ftd_item_req_qry_market_match_data {
    FTD_ITEM_REQ_QRY_MARKET_MATCH_DATA_INSTRUMENT_ID = 0  /* at 0, width 10: text, FTDInstrumentId */
};

/* ReqQryTradeField, FID 0x0020. */
enum ftd_item_req_qry_trade {
    FTD_ITEM_REQ_QRY_TRADE_INSTRUMENT_ID = 0,      /* at 0, width 10: text, FTDInstrumentId */
    FTD_ITEM_REQ_QRY_TRADE_INSTRUMENT_VERSION = 1, /* at 10, width 1: char, FTDInstrumentVersion */
    FTD_ITEM_REQ_QRY_TRADE_PARTICIPANT_ID = 2,     /* at 11, width 8: text, FTDParticipantId */
    FTD_ITEM_REQ_QRY_TRADE_USER_ID = 3,            /* at 19, width 15: text, FTDUserId */
    FTD_ITEM_REQ_QRY_TRADE_CLIENT_ID = 4,          /* at 34, width 8: text, FTDClientId */
    FTD_ITEM_REQ_QRY_TRADE_ORDER_SYS_ID = 5,       /* at 42, width 20: text, FTDSysOrderId */
    FTD_ITEM_REQ_QRY_TRADE_START_TIME = 6,         /* at 62, width 8: text, FTDTime */
    FTD_ITEM_REQ_QRY_TRADE_THROUGH_TIME = 7        /* at 70, width 8: text, FTDTime */
};

/* ReqQryUserField, FID 0x0021. */
enum ftd_item_req_qry_user {
    FTD_ITEM_REQ_QRY_USER_PARTICIPANT_ID = 0, /* at 0, width 8: text, FTDParticipantId */
    FTD_ITEM_REQ_QRY_USER_USER_ID = 1         /* at 8, width 15: text, FTDUserId */
};

/* ReqQryUserLoginField, FID 0x0022. */
enum ftd_item_req_qry_user_login {
    FTD_ITEM_REQ_QRY_USER_LOGIN_PARTICIPANT_ID = 0, /* at 0, width 8: text, FTDParticipantId */
    FTD_ITEM_REQ_QRY_USER_LOGIN_USER_ID = 1         /* at 8, width 15: text, FTDUserId */
};

/* ReqUserLoginField, FID 0x0023. */
enum ftd_item_req_user_login {
    FTD_ITEM_REQ_USER_LOGIN_DATA_FLOW_FLAG = 0,       /* at 0, width 1: char, FTDDataFlowFlag */
    FTD_ITEM_REQ_USER_LOGIN_PARTICIPANT_ID = 1,       /* at 1, width 8: text, FTDParticipantId */
    FTD_ITEM_REQ_USER_LOGIN_USER_ID = 2,              /* at 9, width 15: text, FTDUserId */
    FTD_ITEM_REQ_USER_LOGIN_PASSWORD = 3,             /* at 24, width 40: text, FTDPassword */
    FTD_ITEM_REQ_USER_LOGIN_CONNECTION_REFERENCE = 4, /* at 64, width 5: text, FTDConnectionReference */
    FTD_ITEM_REQ_USER_LOGIN_SERVER_APP_NAME = 5,      /* at 69, width 20: text, FTDServerAppName */
    FTD_ITEM_REQ_USER_LOGIN_PROTOCOL_VERSION = 6,     /* at 89, width 8: text, FTDProtocolVersion */
    FTD_ITEM_REQ_USER_LOGIN_TIME_OUT = 7,             /* at 97, width 3: number, FTDTimeOut */
    FTD_ITEM_REQ_USER_LOGIN_IP_ADDR = 8               /* at 100, width 20: text, FTDStringType<20> */
};

/* ReqUserLogoutField, FID 0x0024. */
enum ftd_item_req_user_logout {
    FTD_ITEM_REQ_USER_LOGOUT_DATA_FLOW_FLAG = 0, /* at 0, width 1: char, FTDDataFlowFlag */
    FTD_ITEM_REQ_USER_LOGOUT_PARTICIPANT_ID = 1, /* at 1, width 8: text, FTDParticipantId */
    FTD_ITEM_REQ_USER_LOGOUT_USER_ID = 2         /* at 9, width 15: text, FTDUserId */
};

/* ReqUserPasswordUpdateField, FID 0x0025. */
enum ftd_item_req_user_password_update {
    FTD_ITEM_REQ_USER_PASSWORD_UPDATE_PARTICIPANT_ID = 0, /* at 0, width 8: text, FTDParticipantId */
    FTD_ITEM_REQ_USER_PASSWORD_UPDATE_USER_ID = 1,        /* at 8, width 15: text, FTDUserId */
    FTD_ITEM_REQ_USER_PASSWORD_UPDATE_NEW_PASSWORD = 2,   /* at 23, width 40: text, FTDPassword */
    FTD_ITEM_REQ_USER_PASSWORD_UPDATE_OLD_PASSWORD = 3    /* at 63, width 40: text, FTDPassword */
};

/* MarketField, FID 0x0026. */
enum ftd_item_market {
    FTD_ITEM_MARKET_MARKET_ID = 0,                 /* at 0, width 10: text, FTDMarketId */
    FTD_ITEM_MARKET_MARKET_NAME = 1,               /* at 10, width 80: text, FTDName */
    FTD_ITEM_MARKET_BROADCAST_SEQUENCE_SERIES = 2, /* at 90, width 2: word, FTDWordType */
    FTD_ITEM_MARKET_TRADE_TYPE = 3                 /* at 92, width 1: char, FTDTradeType */
};

/* RspUserLoginField, FID 0x0027. */
enum ftd_item_rsp_user_login {
    FTD_ITEM_RSP_USER_LOGIN_DATA_FLOW_FLAG = 0,     /* at 0, width 1: char, FTDDataFlowFlag */
    FTD_ITEM_RSP_USER_LOGIN_PARTICIPANT_ID = 1,     /* at 1, width 8: text, FTDParticipantId */
    FTD_ITEM_RSP_USER_LOGIN_USER_ID = 2,            /* at 9, width 15: text, FTDUserId */
    FTD_ITEM_RSP_USER_LOGIN_PASSWORD = 3,           /* at 24, width 40: text, FTDPassword */
    FTD_ITEM_RSP_USER_LOGIN_EXCHANGE_DATE_TIME = 4, /* at 64, width 20: text, FTDDateTime */
    FTD_ITEM_RSP_USER_LOGIN_TIME_SPAN = 5,          /* at 84, width 3: number, FTDNumberType<3> */
    FTD_ITEM_RSP_USER_LOGIN_IP_ADDR = 6,            /* at 87, width 20: text, FTDStringType<20> */
    FTD_ITEM_RSP_USER_LOGIN_MAX_ORDER_LOCAL_ID = 7  /* at 107, width 24: text, FTDLocalId */
};

/* RspUserLogoutField, FID 0x0028. */
enum ftd_item_rsp_user_logout {
    FTD_ITEM_RSP_USER_LOGOUT_DATA_FLOW_FLAG = 0,     /* at 0, width 1: char, FTDDataFlowFlag */
    FTD_ITEM_RSP_USER_LOGOUT_PARTICIPANT_ID = 1,     /* at 1, width 8: text, FTDParticipantId */
    FTD_ITEM_RSP_USER_LOGOUT_USER_ID = 2,            /* at 9, width 15: text, FTDUserId */
    FTD_ITEM_RSP_USER_LOGOUT_EXCHANGE_DATE_TIME = 3  /* at 24, width 20: text, FTDDateTime */
};

/* RspUserPasswordUpdateField, FID 0x0029. */
enum ftd_item_rsp_user_password_update {
    FTD_ITEM_RSP_USER_PASSWORD_UPDATE_PARTICIPANT_ID = 0, /* at 0, width 8: text, FTDParticipantId */
    FTD_ITEM_RSP_USER_PASSWORD_UPDATE_USER_ID = 1,        /* at 8, width 15: text, FTDUserId */
    FTD_ITEM_RSP_USER_PASSWORD_UPDATE_NEW_PASSWORD = 2    /* at 23, width 40: text, FTDPassword */
};

/* TradeInsertSingleField, FID 0x002A. */
enum ftd_item_trade_insert_single {
    FTD_ITEM_TRADE_INSERT_SINGLE_INSTRUMENT_ID = 0,      /* at 0, width 10: text, FTDInstrumentId */
    FTD_ITEM_TRADE_INSERT_SINGLE_INSTRUMENT_VERSION = 1, /* at 10, width 1: char, FTDInstrumentVersion */
    FTD_ITEM_TRADE_INSERT_SINGLE_CANCEL_FLAG = 2,        /* at 11, width 1: char, FTDBoolFlag */
    FTD_ITEM_TRADE_INSERT_SINGLE_CANCEL_DATE = 3,        /* at 12, width 8: date, FTDDate */
    FTD_ITEM_TRADE_INSERT_SINGLE_CANCEL_TIME = 4,        /* at 20, width 8: text, FTDTime */
    FTD_ITEM_TRADE_INSERT_SINGLE_TRADE_ID = 5,           /* at 28, width 20: text, FTDTradeId */
    FTD_ITEM_TRADE_INSERT_SINGLE_MATCH_DATE = 6,         /* at 48, width 8: date, FTDDate */
    FTD_ITEM_TRADE_INSERT_SINGLE_MATCH_TIME = 7,         /* at 56, width 8: text, FTDTime */
    FTD_ITEM_TRADE_INSERT_SINGLE_CLEAR_DATE = 8,         /* at 64, width 8: date, FTDDate */
    FTD_ITEM_TRADE_INSERT_SINGLE_PRICE = 9,              /* at 72, width 12: float, 4 decimals, FTDPrice */
    FTD_ITEM_TRADE_INSERT_SINGLE_VOLUME = 10,            /* at 84, width 4: int, FTDVolume */
    FTD_ITEM_TRADE_INSERT_SINGLE_ORDER_SYS_ID = 11,      /* at 88, width 20: text, FTDSysOrderId */
    FTD_ITEM_TRADE_INSERT_SINGLE_USER_ID = 12,           /* at 108, width 15: text, FTDUserId */
    FTD_ITEM_TRADE_INSERT_SINGLE_DIRECTION = 13,         /* at 123, width 1: char, FTDDirection */
    FTD_ITEM_TRADE_INSERT_SINGLE_OFFSET_FLAG = 14,       /* at 124, width 1: char, FTDOffsetFlag */
    FTD_ITEM_TRADE_INSERT_SINGLE_HEDGE_FLAG = 15,        /* at 125, width 1: char, FTDHedgeFlag */
    FTD_ITEM_TRADE_INSERT_SINGLE_PARTICIPANT_ID = 16,    /* at 126, width 8: text, FTDParticipantId */
    FTD_ITEM_TRADE_INSERT_SINGLE_CLIENT_ID = 17,         /* at 134, width 8: text, FTDClientId */
    FTD_ITEM_TRADE_INSERT_SINGLE_ORDER_LOCAL_ID = 18     /* at 142, width 24: text, FTDLocalId */
};

/* UserField, FID 0x002B. */
enum ftd_item_user {
    FTD_ITEM_USER_USER_ID = 0,        /* at 0, width 15: text, FTDUserId */
    FTD_ITEM_USER_PARTICIPANT_ID = 1, /* at 15, width 8: text, FTDParticipantId */
    FTD_ITEM_USER_NAME = 2,           /* at 23, width 20: text, FTDStringType<20> */
    FTD_ITEM_USER_IS_LOGIN = 3,       /* at 43, width 1: char, FTDBoolFlag */
    FTD_ITEM_USER_USER_STATUS = 4,    /* at 44, width 1: char, FTDUserStatus */
    FTD_ITEM_USER_USER_TYPE = 5       /* at 45, width 1: char, FTDUserType */
};

/* UserLoginField, FID 0x002C. */
enum ftd_item_user_login {
    FTD_ITEM_USER_LOGIN_PARTICIPANT_ID = 0,          /* at 0, width 8: text, FTDParticipantId */
    FTD_ITEM_USER_LOGIN_USER_ID = 1,                 /* at 8, width 15: text, FTDUserId */
    FTD_ITEM_USER_LOGIN_IP_ADDR = 2,                 /* at 23, width 20: text, FTDStringType<20> */
    FTD_ITEM_USER_LOGIN_DIALOG_STREAM_STATUS = 3,    /* at 43, width 1: char, FTDBoolFlag */
    FTD_ITEM_USER_LOGIN_DIALOG_LOGIN_TIME = 4,       /* at 44, width 20: text, FTDDateTime */
    FTD_ITEM_USER_LOGIN_DIALOG_LOGOUT_TIME = 5,      /* at 64, width 20: text, FTDDateTime */
    FTD_ITEM_USER_LOGIN_PRIVATE_STREAM_STATUS = 6,   /* at 84, width 1: char, FTDBoolFlag */
    FTD_ITEM_USER_LOGIN_PRIVATE_LOGIN_TIME = 7,      /* at 85, width 20: text, FTDDateTime */
    FTD_ITEM_USER_LOGIN_PRIVATE_LOGOUT_TIME = 8,     /* at 105, width 20: text, FTDDateTime */
    FTD_ITEM_USER_LOGIN_BROADCAST_STREAM_STATUS = 9, /* at 125, width 1: char, FTDBoolFlag */
    FTD_ITEM_USER_LOGIN_BROADCAST_LOGIN_TIME = 10,   /* at 126, width 20: text, FTDDateTime */
    FTD_ITEM_USER_LOGIN_BROADCAST_LOGOUT_TIME = 11,  /* at 146, width 20: text, FTDDateTime */
    FTD_ITEM_USER_LOGIN_FRONT_ID = 12                /* at 166, width 20: text, FTDStringType<20> */
};

/* ErrorTargetOrderField, FID 0x002D. */
enum ftd_item_error_target_order {
    FTD_ITEM_ERROR_TARGET_ORDER_ORDER_SYS_ID = 0,   /* at 0, width 20: text, FTDSysOrderId */
    FTD_ITEM_ERROR_TARGET_ORDER_ORDER_LOCAL_ID = 1  /* at 20, width 24: text, FTDLocalId */
};

/* ErrorTargetSequenceField, FID 0x002E. */
enum ftd_item_error_target_sequence {
    FTD_ITEM_ERROR_TARGET_SEQUENCE_SEQUENCE_SERIES = 0, /* at 0, width 2: word, FTDSequenceSeries */
    FTD_ITEM_ERROR_TARGET_SEQUENCE_SEQUENCE_NO = 1      /* at 2, width 4: int, FTDSequenceNo */
};

/* The values of the enumerations (Appendix B), by type. Where 0 isn't among the listed ones it stands
 * for an unused item. */

enum ftd_value_action_flag {
    FTD_VALUE_ACTION_FLAG_DELETE = 0,   /* delete */
    FTD_VALUE_ACTION_FLAG_SUSPEND = 1,  /* suspend */
    FTD_VALUE_ACTION_FLAG_ACTIVATE = 2  /* activate */
};

enum ftd_value_bool_flag {
    FTD_VALUE_BOOL_FLAG_FALSE = 0, /* false */
    FTD_VALUE_BOOL_FLAG_TRUE = 1   /* true */
};

enum ftd_value_client_type {
    FTD_VALUE_CLIENT_TYPE_NATURAL_PERSON = 0, /* natural person */
    FTD_VALUE_CLIENT_TYPE_LEGAL_PERSON = 1    /* legal person */
};

enum ftd_value_data_flow_flag {
    FTD_VALUE_DATA_FLOW_FLAG_DIALOG_FLOW = 0,    /* dialog flow */
    FTD_VALUE_DATA_FLOW_FLAG_PRIVATE_FLOW = 1,   /* private flow */
    FTD_VALUE_DATA_FLOW_FLAG_BROADCAST_FLOW = 2  /* broadcast flow */
};

enum ftd_value_direction {
    FTD_VALUE_DIRECTION_BUY = 0,  /* buy */
    FTD_VALUE_DIRECTION_SELL = 1  /* sell */
};

enum ftd_value_force_exit_code {
    FTD_VALUE_FORCE_EXIT_CODE_ONLY = 0  /* none but this at present */
};

enum ftd_value_hedge_flag {
    FTD_VALUE_HEDGE_FLAG_UNUSED = 0,      /* unused */
    FTD_VALUE_HEDGE_FLAG_SPECULATION = 1, /* speculation */
    FTD_VALUE_HEDGE_FLAG_HEDGING = 3      /* hedging */
};

enum ftd_value_instrument_status {
    FTD_VALUE_INSTRUMENT_STATUS_CONTINUOUS_TRADING = 0, /* continuous trading */
    FTD_VALUE_INSTRUMENT_STATUS_OPENING_AUCTION = 1,    /* opening auction */
    FTD_VALUE_INSTRUMENT_STATUS_CLOSING_AUCTION = 2,    /* closing auction */
    FTD_VALUE_INSTRUMENT_STATUS_HALTED = 3,             /* halted */
    FTD_VALUE_INSTRUMENT_STATUS_NOT_TRADING = 4         /* not trading */
};

enum ftd_value_instrument_type {
    FTD_VALUE_INSTRUMENT_TYPE_ONLY = 0  /* none but this at present */
};

enum ftd_value_instrument_version {
    FTD_VALUE_INSTRUMENT_VERSION_ONLY = 0  /* none but this at present */
};

enum ftd_value_market_status {
    FTD_VALUE_MARKET_STATUS_CONTINUOUS_TRADING = 0, /* continuous trading */
    FTD_VALUE_MARKET_STATUS_OPENING_AUCTION = 1,    /* opening auction */
    FTD_VALUE_MARKET_STATUS_CLOSING_AUCTION = 2,    /* closing auction */
    FTD_VALUE_MARKET_STATUS_HALTED = 3,             /* halted */
    FTD_VALUE_MARKET_STATUS_NOT_TRADING = 4         /* not trading */
};

enum ftd_value_match_condition {
    FTD_VALUE_MATCH_CONDITION_UNUSED = 0,              /* unused */
    FTD_VALUE_MATCH_CONDITION_ALL_AT_ONCE_OR_NONE = 1, /* all at once or none */
    FTD_VALUE_MATCH_CONDITION_AT_ONCE_IN_PART = 2,     /* at once in part */
    FTD_VALUE_MATCH_CONDITION_GOOD_FOR_THE_DAY = 3,    /* good for the day */
    FTD_VALUE_MATCH_CONDITION_GOOD_TILL_CANCELLED = 4, /* good till cancelled */
    FTD_VALUE_MATCH_CONDITION_GOOD_TILL_DATE = 5       /* good till date */
};

enum ftd_value_match_flag {
    FTD_VALUE_MATCH_FLAG_BOTH_OPEN = 0,  /* both open */
    FTD_VALUE_MATCH_FLAG_BOTH_CLOSE = 1, /* both close */
    FTD_VALUE_MATCH_FLAG_DIFFERENT = 2   /* different */
};

enum ftd_value_match_session {
    FTD_VALUE_MATCH_SESSION_UNUSED = 0,                      /* unused */
    FTD_VALUE_MATCH_SESSION_OPENING_AUCTION = 1,             /* opening auction */
    FTD_VALUE_MATCH_SESSION_CONTINUOUS_TRADING = 2,          /* continuous trading */
    FTD_VALUE_MATCH_SESSION_OPENING_AND_CONTINUOUS = 3,      /* opening auction and continuous trading */
    FTD_VALUE_MATCH_SESSION_CLOSING_AUCTION = 4,             /* closing auction */
    FTD_VALUE_MATCH_SESSION_OPENING_AND_CLOSING_AUCTION = 5, /* opening and closing auction */
    FTD_VALUE_MATCH_SESSION_CONTINUOUS_AND_CLOSING = 6,      /* continuous trading and closing auction */
    FTD_VALUE_MATCH_SESSION_ALL = 7 /* opening auction, continuous trading and closing auction */
};

enum ftd_value_news_urgency {
    FTD_VALUE_NEWS_URGENCY_NOT_URGENT = 0, /* not urgent */
    FTD_VALUE_NEWS_URGENCY_URGENT = 1      /* urgent */
};

enum ftd_value_offset_flag {
    FTD_VALUE_OFFSET_FLAG_OPEN = 0,             /* open */
    FTD_VALUE_OFFSET_FLAG_CLOSE = 1,            /* close */
    FTD_VALUE_OFFSET_FLAG_FORCED_CLOSE = 2,     /* forced close */
    FTD_VALUE_OFFSET_FLAG_FORCED_REDUCTION = 3  /* forced reduction */
};

enum ftd_value_order_status {
    FTD_VALUE_ORDER_STATUS_ALL_TRADED = 0,               /* all traded */
    FTD_VALUE_ORDER_STATUS_PART_TRADED_QUEUEING = 1,     /* part traded, queueing */
    FTD_VALUE_ORDER_STATUS_PART_TRADED_NOT_QUEUEING = 2, /* part traded, not queueing */
    FTD_VALUE_ORDER_STATUS_NOT_TRADED_QUEUEING = 3,      /* not traded, queueing */
    FTD_VALUE_ORDER_STATUS_NOT_TRADED_NOT_QUEUEING = 4,  /* not traded, not queueing */
    FTD_VALUE_ORDER_STATUS_WITHDRAWN = 5                 /* withdrawn */
};

enum ftd_value_order_type {
    FTD_VALUE_ORDER_TYPE_LIMIT = 0,           /* limit */
    FTD_VALUE_ORDER_TYPE_MARKET = 1,          /* market */
    FTD_VALUE_ORDER_TYPE_STOP_LIMIT = 2,      /* stop limit */
    FTD_VALUE_ORDER_TYPE_STOP_MARKET = 3,     /* stop market */
    FTD_VALUE_ORDER_TYPE_MARKET_TO_LIMIT = 4, /* market to limit */
    FTD_VALUE_ORDER_TYPE_BEST_PRICE = 5,      /* best price */
    FTD_VALUE_ORDER_TYPE_AVERAGE_PRICE = 6    /* average price */
};

enum ftd_value_participant_type {
    FTD_VALUE_PARTICIPANT_TYPE_OWN_ACCOUNT = 0,            /* own account */
    FTD_VALUE_PARTICIPANT_TYPE_BROKER = 1,                 /* broker */
    FTD_VALUE_PARTICIPANT_TYPE_OWN_ACCOUNT_AND_BROKER = 2, /* own account and broker */
    FTD_VALUE_PARTICIPANT_TYPE_SPECIAL = 3,                /* special */
    FTD_VALUE_PARTICIPANT_TYPE_MARKET_MAKER = 4            /* market maker */
};

enum ftd_value_pub_style {
    FTD_VALUE_PUB_STYLE_NOT_PUBLISHED = 0, /* not published */
    FTD_VALUE_PUB_STYLE_PUBLISHED = 1      /* published */
};

enum ftd_value_stop_code {
    FTD_VALUE_STOP_CODE_ONLY = 0  /* none but this at present */
};

enum ftd_value_trade_right {
    FTD_VALUE_TRADE_RIGHT_FULL = 0,       /* full */
    FTD_VALUE_TRADE_RIGHT_CLOSE_ONLY = 1, /* close only */
    FTD_VALUE_TRADE_RIGHT_NO_TRADING = 2  /* no trading */
};

enum ftd_value_trade_type {
    FTD_VALUE_TRADE_TYPE_ONLY = 0  /* none but this at present */
};

enum ftd_value_user_status {
    FTD_VALUE_USER_STATUS_ONLY = 0  /* none but this at present */
};

enum ftd_value_user_type {
    FTD_VALUE_USER_TYPE_ONLY = 0  /* none but this at present */
};

enum ftd_value_volume_type {
    FTD_VALUE_VOLUME_TYPE_INCREMENT = 0, /* increment */
    FTD_VALUE_VOLUME_TYPE_ABSOLUTE = 1   /* absolute */
};

/* ---- What is known of a field and of an item ---- */

struct ftd_field_names {
    const char *name; /* as Appendix D prints it */
    uint16_t first;   /* where its items start in the table of all items */
    uint16_t count;   /* how many items it has */
    uint16_t width;   /* how many bytes they have together: the length of the field */
};

struct ftd_item_names {
    const char *name; /* as Appendix D prints it */
    const char *type; /* of Appendix B or Table 6 */
    uint16_t offset;  /* where the item starts in the field's bytes */
    uint16_t width;   /* how many bytes it has */
    uint8_t kind;     /* enum ftd_kind; FTD_DAY for a Date, which may be FTD_UNUSED when read */
    uint8_t decimals; /* of FTD_FLOAT, else 0 */
    uint8_t listed;   /* FTD_CHAR: its enumeration, a number that ftd_listed_value_name takes; 0: none */
};

/* ---- Look-ups ---- */

/* The name of a TID, as "UserLogin". */
static inline const char *ftd_tid_name(uint32_t tid) {
    switch (tid) {
    case FTD_TID_ERROR:
        return "Error";
    case FTD_TID_QRY_MARKET_MATCH_DATA:
        return "QryMarketMatchData";
    case FTD_TID_ORDER_INSERT:
        return "OrderInsert";
    case FTD_TID_ORDER_ACTION:
        return "OrderAction";
    case FTD_TID_QRY_INSTRUMENT:
        return "QryInstrument";
    case FTD_TID_QRY_ORDER:
        return "QryOrder";
    case FTD_TID_QRY_TRADE:
        return "QryTrade";
    case FTD_TID_QRY_DEPOSIT:
        return "QryDeposit";
    case FTD_TID_QRY_P_POSITION:
        return "QryPPosition";
    case FTD_TID_QRY_POSITION:
        return "QryPosition";
    case FTD_TID_QRY_MARKET:
        return "QryMarket";
    case FTD_TID_QRY_CLIENT:
        return "QryClient";
    case FTD_TID_QRY_MARKET_STATUS:
        return "QryMarketStatus";
    case FTD_TID_QRY_INSTRUMENT_STATUS:
        return "QryInstrumentStatus";
    case FTD_TID_QRY_MARKET_ORDER_DATA:
        return "QryMarketOrderData";
    case FTD_TID_QRY_PARTICIPANT:
        return "QryParticipant";
    case FTD_TID_QRY_USER:
        return "QryUser";
    case FTD_TID_QRY_USER_LOGIN:
        return "QryUserLogin";
    case FTD_TID_USER_LOGIN:
        return "UserLogin";
    case FTD_TID_USER_LOGOUT:
        return "UserLogout";
    case FTD_TID_USER_PASSWORD_UPDATE:
        return "UserPasswordUpdate";
    case FTD_TID_TRADE_INSERT_SINGLE:
        return "TradeInsertSingle";
    case FTD_TID_PARTICIPANT_BULLETIN:
        return "ParticipantBulletin";
    case FTD_TID_ORDER_CONFIRMATION:
        return "OrderConfirmation";
    case FTD_TID_FORCE_EXIT:
        return "ForceExit";
    case FTD_TID_MARKET_ORDER_INC_DATA:
        return "MarketOrderIncData";
    case FTD_TID_MARKET_MATCH_INC_DATA:
        return "MarketMatchIncData";
    case FTD_TID_MARKET_BULLETIN:
        return "MarketBulletin";
    case FTD_TID_MARKET_MATCH_DATA:
        return "MarketMatchData";
    case FTD_TID_MARKET_STATUS_CHANGE_NOTIFY:
        return "MarketStatusChangeNotify";
    case FTD_TID_INSTRUMENT_STATUS_CHANGE_NOTIFY:
        return "InstrumentStatusChangeNotify";
    case FTD_TID_INSTRUMENT_CHANGE_NOTIFY:
        return "InstrumentChangeNotify";
    default:
        return NULL;
    }
}

/* The name of the message with that TID in a direction (enum ftd_direction; any number but 0 is
 * down), as "ReqUserLogin" and "RspUserLogin". */
static inline const char *ftd_message_name(uint32_t tid, uint8_t direction) {
    switch (tid) {
    case FTD_TID_ERROR:
        return direction == FTD_UP ? NULL : "Error";
    case FTD_TID_QRY_MARKET_MATCH_DATA:
        return direction == FTD_UP ? "ReqQryMarketMatchData" : "RspQryMarketMatchData";
    case FTD_TID_ORDER_INSERT:
        return direction == FTD_UP ? "ReqOrderInsert" : "RspOrderInsert";
    case FTD_TID_ORDER_ACTION:
        return direction == FTD_UP ? "ReqOrderAction" : "RspOrderAction";
    case FTD_TID_QRY_INSTRUMENT:
        return direction == FTD_UP ? "ReqQryInstrument" : "RspQryInstrument";
    case FTD_TID_QRY_ORDER:
        return direction == FTD_UP ? "ReqQryOrder" : "RspQryOrder";
    case FTD_TID_QRY_TRADE:
        return direction == FTD_UP ? "ReqQryTrade" : "RspQryTrade";
    case FTD_TID_QRY_DEPOSIT:
        return direction == FTD_UP ? "ReqQryDeposit" : "RspQryDeposit";
    case FTD_TID_QRY_P_POSITION:
        return direction == FTD_UP ? "ReqQryPPosition" : "RspQryPPosition";
    case FTD_TID_QRY_POSITION:
        return direction == FTD_UP ? "ReqQryPosition" : "RspQryPosition";
    case FTD_TID_QRY_MARKET:
        return direction == FTD_UP ? "ReqQryMarket" : "RspQryMarket";
    case FTD_TID_QRY_CLIENT:
        return direction == FTD_UP ? "ReqQryClient" : "RspQryClient";
    case FTD_TID_QRY_MARKET_STATUS:
        return direction == FTD_UP ? "ReqQryMarketStatus" : "RspQryMarketStatus";
    case FTD_TID_QRY_INSTRUMENT_STATUS:
        return direction == FTD_UP ? "ReqQryInstrumentStatus" : "RspQryInstrumentStatus";
    case FTD_TID_QRY_MARKET_ORDER_DATA:
        return direction == FTD_UP ? "ReqQryMarketOrderData" : "RspQryMarketOrderData";
    case FTD_TID_QRY_PARTICIPANT:
        return direction == FTD_UP ? "ReqQryParticipant" : "RspQryParticipant";
    case FTD_TID_QRY_USER:
        return direction == FTD_UP ? "ReqQryUser" : "RspQryUser";
    case FTD_TID_QRY_USER_LOGIN:
        return direction == FTD_UP ? "ReqQryUserLogin" : "RspQryUserLogin";
    case FTD_TID_USER_LOGIN:
        return direction == FTD_UP ? "ReqUserLogin" : "RspUserLogin";
    case FTD_TID_USER_LOGOUT:
        return direction == FTD_UP ? "ReqUserLogout" : "RspUserLogout";
    case FTD_TID_USER_PASSWORD_UPDATE:
        return direction == FTD_UP ? "ReqUserPasswordUpdate" : "RspUserPasswordUpdate";
    case FTD_TID_TRADE_INSERT_SINGLE:
        return direction == FTD_UP ? NULL : "TradeInsertSingle";
    case FTD_TID_PARTICIPANT_BULLETIN:
        return direction == FTD_UP ? NULL : "ParticipantBulletin";
    case FTD_TID_ORDER_CONFIRMATION:
        return direction == FTD_UP ? NULL : "OrderConfirmation";
    case FTD_TID_FORCE_EXIT:
        return direction == FTD_UP ? NULL : "ForceExit";
    case FTD_TID_MARKET_ORDER_INC_DATA:
        return direction == FTD_UP ? NULL : "MarketOrderIncData";
    case FTD_TID_MARKET_MATCH_INC_DATA:
        return direction == FTD_UP ? NULL : "MarketMatchIncData";
    case FTD_TID_MARKET_BULLETIN:
        return direction == FTD_UP ? NULL : "MarketBulletin";
    case FTD_TID_MARKET_MATCH_DATA:
        return direction == FTD_UP ? NULL : "MarketMatchData";
    case FTD_TID_MARKET_STATUS_CHANGE_NOTIFY:
        return direction == FTD_UP ? NULL : "MarketStatusChangeNotify";
    case FTD_TID_INSTRUMENT_STATUS_CHANGE_NOTIFY:
        return direction == FTD_UP ? NULL : "InstrumentStatusChangeNotify";
    case FTD_TID_INSTRUMENT_CHANGE_NOTIFY:
        return direction == FTD_UP ? NULL : "InstrumentChangeNotify";
    default:
        return NULL;
    }
}

/* What is known of the field with that FID. */
static inline const struct ftd_field_names *ftd_field_names_of(uint32_t fid) {
    static const struct ftd_field_names fields[46] = {
        {"BulletinField", 0, 8, 822},
        {"ClientField", 8, 5, 98},
        {"DepositField", 13, 27, 353},
        {"DisseminationstartField", 40, 2, 6},
        {"ErrorField", 42, 3, 130},
        {"ForceExitField", 45, 2, 101},
        {"InstrumentField", 47, 26, 201},
        {"InstrumentStatusField", 73, 2, 11},
        {"MarketStatusField", 75, 3, 15},
        {"MarketMatchIncDataField", 78, 6, 29},
        {"OrderActionField", 84, 6, 71},
        {"OrderInsertField", 90, 20, 158},
        {"MarketOrderDataField", 110, 7, 33},
        {"OrderStatusField", 117, 30, 254},
        {"ParticipantField", 147, 4, 90},
        {"PositionField", 151, 37, 163},
        {"PPositionField", 188, 36, 155},
        {"MarketMatchDataChgField", 224, 12, 99},
        {"MarketMatchDataField", 236, 30, 252},
        {"ReqQryClientField", 266, 2, 16},
        {"ReqQryDepositField", 268, 1, 8},
        {"ReqQryInstrumentField", 269, 2, 20},
        {"ReqQryInstrumentStatusField", 271, 2, 20},
        {"ReqQryMarketField", 273, 1, 10},
        {"ReqQryMarketStatusField", 274, 1, 10},
        {"ReqQryOrderField", 275, 6, 62},
        {"ReqQryMarketOrderDataField", 281, 2, 11},
        {"ReqQryParticipantField", 283, 1, 8},
        {"ReqQryPositionField", 284, 3, 26},
        {"ReqQryPPositionField", 287, 2, 18},
        {"ReqQryMarketMatchDataField", 289, 1, 10},
        {"ReqQryTradeField", 290, 8, 78},
        {"ReqQryUserField", 298, 2, 23},
        {"ReqQryUserLoginField", 300, 2, 23},
        {"ReqUserLoginField", 302, 9, 120},
        {"ReqUserLogoutField", 311, 3, 24},
        {"ReqUserPasswordUpdateField", 314, 4, 103},
        {"MarketField", 318, 4, 93},
        {"RspUserLoginField", 322, 8, 131},
        {"RspUserLogoutField", 330, 4, 44},
        {"RspUserPasswordUpdateField", 334, 3, 63},
        {"TradeInsertSingleField", 337, 19, 166},
        {"UserField", 356, 6, 46},
        {"UserLoginField", 362, 13, 186},
        {"ErrorTargetOrderField", 375, 2, 44},
        {"ErrorTargetSequenceField", 377, 2, 6}
    };
    return fid >= 1 && fid <= 46 ? &fields[fid - 1] : NULL;
}

/* What is known of item i, counted from 0, of the field with that FID. */
static inline const struct ftd_item_names *ftd_item_names_of(uint32_t fid, size_t i) {
    static const struct ftd_item_names items[379] = {
        /* 0x0001 BulletinField */
        {"NewsType", "FTDNewsType", 0, 3, FTD_TEXT, 0, 0},
        {"NewsUrgency", "FTDNewsUrgency", 3, 1, FTD_CHAR, 0, 15},
        {"SendTime", "FTDTime", 4, 8, FTD_TEXT, 0, 0},
        {"Abstract", "FTDStringType<80>", 12, 80, FTD_TEXT, 0, 0},
        {"ComeFrom", "FTDStringType<20>", 92, 20, FTD_TEXT, 0, 0},
        {"MarketId", "FTDMarketId", 112, 10, FTD_TEXT, 0, 0},
        {"Content", "FTDStringType<500>", 122, 500, FTD_TEXT, 0, 0},
        {"URLLink", "FTDStringType<200>", 622, 200, FTD_TEXT, 0, 0},
        /* 0x0002 ClientField */
        {"ClientId", "FTDClientId", 0, 8, FTD_TEXT, 0, 0},
        {"ParticipantId", "FTDParticipantId", 8, 8, FTD_TEXT, 0, 0},
        {"ClientName", "FTDName", 16, 80, FTD_TEXT, 0, 0},
        {"ClientType", "FTDClientType", 96, 1, FTD_CHAR, 0, 3},
        {"TradeRights", "FTDTradeRight", 97, 1, FTD_CHAR, 0, 22},
        /* 0x0003 DepositField */
        {"ParticipantId", "FTDParticipantId", 0, 8, FTD_TEXT, 0, 0},
        {"ParticipantType", "FTDParticipantType", 8, 1, FTD_CHAR, 0, 19},
        {"TradeDate", "FTDDate", 9, 8, FTD_DAY, 0, 0},
        {"InitMargin", "FTDValue", 17, 14, FTD_FLOAT, 2, 0},
        {"BuySpecOpenUsedMargin", "FTDValue", 31, 14, FTD_FLOAT, 2, 0},
        {"BuyHedgeOpenUsedMargin", "FTDValue", 45, 14, FTD_FLOAT, 2, 0},
        {"SellSpecOpenUsedMargin", "FTDValue", 59, 14, FTD_FLOAT, 2, 0},
        {"SellHedgeOpenUsedMargin", "FTDValue", 73, 14, FTD_FLOAT, 2, 0},
        {"BuySpecOffsetProfit", "FTDValue", 87, 14, FTD_FLOAT, 2, 0},
        {"BuyHedgeOffsetProfit", "FTDValue", 101, 14, FTD_FLOAT, 2, 0},
        {"SellSpecOffsetProfit", "FTDValue", 115, 14, FTD_FLOAT, 2, 0},
        {"SellHedgeOffsetProfit", "FTDValue", 129, 14, FTD_FLOAT, 2, 0},
        {"BuySpecOpenFrozMargin", "FTDValue", 143, 14, FTD_FLOAT, 2, 0},
        {"BuyHedgeOpenFrozMargin", "FTDValue", 157, 14, FTD_FLOAT, 2, 0},
        {"SellSpecOpenFrozMargin", "FTDValue", 171, 14, FTD_FLOAT, 2, 0},
        {"SellHedgeOpenFrozMargin", "FTDValue", 185, 14, FTD_FLOAT, 2, 0},
        {"BuySpecOffsetMargin", "FTDValue", 199, 14, FTD_FLOAT, 2, 0},
        {"BuyHedgeOffsetMargin", "FTDValue", 213, 14, FTD_FLOAT, 2, 0},
        {"SellSpecOffsetMargin", "FTDValue", 227, 14, FTD_FLOAT, 2, 0},
        {"SellHedgeOffsetMargin", "FTDValue", 241, 14, FTD_FLOAT, 2, 0},
        {"BuySpecTurnOver", "FTDValue", 255, 14, FTD_FLOAT, 2, 0},
        {"BuyHedgeTurnOver", "FTDValue", 269, 14, FTD_FLOAT, 2, 0},
        {"SellSpecTurnOver", "FTDValue", 283, 14, FTD_FLOAT, 2, 0},
        {"SellHedgeTurnOver", "FTDValue", 297, 14, FTD_FLOAT, 2, 0},
        {"AddValue", "FTDValue", 311, 14, FTD_FLOAT, 2, 0},
        {"DelValue", "FTDValue", 325, 14, FTD_FLOAT, 2, 0},
        {"BalanceValue", "FTDValue", 339, 14, FTD_FLOAT, 2, 0},
        /* 0x0004 DisseminationstartField */
        {"SequenceSeries", "FTDSequenceSeries", 0, 2, FTD_WORD, 0, 0},
        {"SequenceNo", "FTDSequenceNo", 2, 4, FTD_INT, 0, 0},
        /* 0x0005 ErrorField */
        {"ErrorCode", "FTDErrorCode", 0, 10, FTD_TEXT, 0, 0},
        {"ErrorText", "FTDStringType<100>", 10, 100, FTD_TEXT, 0, 0},
        {"TimeStamp", "FTDTimeStamp", 110, 20, FTD_TEXT, 0, 0},
        /* 0x0006 ForceExitField */
        {"ForceExitCode", "FTDForceExitCode", 0, 1, FTD_CHAR, 0, 6},
        {"ForceExitMsg", "FTDStringType<100>", 1, 100, FTD_TEXT, 0, 0},
        /* 0x0007 InstrumentField */
        {"MarketId", "FTDMarketId", 0, 10, FTD_TEXT, 0, 0},
        {"InstrumentId", "FTDInstrumentId", 10, 10, FTD_TEXT, 0, 0},
        {"InstrumentVersion", "FTDInstrumentVersion", 20, 1, FTD_CHAR, 0, 10},
        {"InstrumentName", "FTDName", 21, 80, FTD_TEXT, 0, 0},
        {"ShortCutKey", "FTDCharType", 101, 1, FTD_CHAR, 0, 0},
        {"StartTrdDate", "FTDDate", 102, 8, FTD_DAY, 0, 0},
        {"EndTrdDate", "FTDDate", 110, 8, FTD_DAY, 0, 0},
        {"InstrumentType", "FTDInstrumentType", 118, 1, FTD_CHAR, 0, 9},
        {"EndDelvDate", "FTDDate", 119, 8, FTD_DAY, 0, 0},
        {"StartDelvDate", "FTDDate", 127, 8, FTD_DAY, 0, 0},
        {"InstrStopCode", "FTDStopCode", 135, 1, FTD_CHAR, 0, 21},
        {"Currency", "FTDStringType<3>", 136, 3, FTD_TEXT, 0, 0},
        {"TradeRights", "FTDTradeRight", 139, 1, FTD_CHAR, 0, 22},
        {"FuseRights", "FTDBoolFlag", 140, 1, FTD_CHAR, 0, 2},
        {"Unit", "FTDIntType", 141, 4, FTD_INT, 0, 0},
        {"Tick", "FTDPrice", 145, 12, FTD_FLOAT, 4, 0},
        {"HighLimitRate", "FTDPercent", 157, 4, FTD_FLOAT, 2, 0},
        {"LowLimitRate", "FTDPercent", 161, 4, FTD_FLOAT, 2, 0},
        {"MaxLot", "FTDVolume", 165, 4, FTD_INT, 0, 0},
        {"MinLot", "FTDVolume", 169, 4, FTD_INT, 0, 0},
        {"Pubstyle", "FTDPubStyle", 173, 1, FTD_CHAR, 0, 20},
        {"Fuselimit", "FTDPrice", 174, 12, FTD_FLOAT, 4, 0},
        {"Fusepersisttime", "FTDIntType", 186, 4, FTD_INT, 0, 0},
        {"Fusepoint", "FTDStringType<6>", 190, 6, FTD_TEXT, 0, 0},
        {"FuseFlag", "FTDBoolFlag", 196, 1, FTD_CHAR, 0, 2},
        {"Forcedistime", "FTDIntType", 197, 4, FTD_INT, 0, 0},
        /* 0x0008 InstrumentStatusField */
        {"InstrumentId", "FTDInstrumentId", 0, 10, FTD_TEXT, 0, 0},
        {"InstrumentStatus", "FTDInstrumentStatus", 10, 1, FTD_CHAR, 0, 8},
        /* 0x0009 MarketStatusField */
        {"MarketId", "FTDMarketId", 0, 10, FTD_TEXT, 0, 0},
        {"MarketStatusId", "FTDMarketStatus", 10, 1, FTD_CHAR, 0, 11},
        {"BroadcastSequenceNo", "FTDIntType", 11, 4, FTD_INT, 0, 0},
        /* 0x000A MarketMatchIncDataField */
        {"InstrumentId", "FTDInstrumentId", 0, 10, FTD_TEXT, 0, 0},
        {"InstrumentVersion", "FTDInstrumentVersion", 10, 1, FTD_CHAR, 0, 10},
        {"VolumeType", "FTDVolumeType", 11, 1, FTD_CHAR, 0, 26},
        {"Price", "FTDPrice", 12, 12, FTD_FLOAT, 4, 0},
        {"Volume", "FTDVolume", 24, 4, FTD_INT, 0, 0},
        {"MatchFlag", "FTDMatchFlag", 28, 1, FTD_CHAR, 0, 13},
        /* 0x000B OrderActionField */
        {"OrderActionCode", "FTDActionFlag", 0, 1, FTD_CHAR, 0, 1},
        {"OrderSysId", "FTDSysOrderId", 1, 20, FTD_TEXT, 0, 0},
        {"ActionLocalId", "FTDLocalId", 21, 24, FTD_TEXT, 0, 0},
        {"InstrumentId", "FTDInstrumentId", 45, 10, FTD_TEXT, 0, 0},
        {"InstrumentVersion", "FTDInstrumentVersion", 55, 1, FTD_CHAR, 0, 10},
        {"UserId", "FTDUserId", 56, 15, FTD_TEXT, 0, 0},
        /* 0x000C OrderInsertField */
        {"OrderSysId", "FTDSysOrderId", 0, 20, FTD_TEXT, 0, 0},
        {"OrderLocalId", "FTDLocalId", 20, 24, FTD_TEXT, 0, 0},
        {"UserId", "FTDUserId", 44, 15, FTD_TEXT, 0, 0},
        {"ParticipantId", "FTDParticipantId", 59, 8, FTD_TEXT, 0, 0},
        {"ClientId", "FTDClientId", 67, 8, FTD_TEXT, 0, 0},
        {"InstrumentId", "FTDInstrumentId", 75, 10, FTD_TEXT, 0, 0},
        {"Direction", "FTDDirection", 85, 1, FTD_CHAR, 0, 5},
        {"OffsetFlag", "FTDOffsetFlag", 86, 1, FTD_CHAR, 0, 16},
        {"HedgeFlag", "FTDHedgeFlag", 87, 1, FTD_CHAR, 0, 7},
        {"StopPrice", "FTDPrice", 88, 12, FTD_FLOAT, 4, 0},
        {"LimitPrice", "FTDPrice", 100, 12, FTD_FLOAT, 4, 0},
        {"VolumeTotalOriginal", "FTDIntType", 112, 4, FTD_INT, 0, 0},
        {"OrderType", "FTDOrderType", 116, 1, FTD_CHAR, 0, 18},
        {"MatchCondition", "FTDMatchCondition", 117, 1, FTD_CHAR, 0, 12},
        {"MatchSession", "FTDMatchSession", 118, 1, FTD_CHAR, 0, 14},
        {"ValidThrough", "FTDDate", 119, 8, FTD_DAY, 0, 0},
        {"MinimalVolume", "FTDVolume", 127, 4, FTD_INT, 0, 0},
        {"AutoSuspend", "FTDBoolFlag", 131, 1, FTD_CHAR, 0, 2},
        {"InsertTime", "FTDDateTime", 132, 20, FTD_TEXT, 0, 0},
        {"MessageReference", "FTDMsgRef", 152, 6, FTD_TEXT, 0, 0},
        /* 0x000D MarketOrderDataField */
        {"InstrumentId", "FTDInstrumentId", 0, 10, FTD_TEXT, 0, 0},
        {"InstrumentVersion", "FTDInstrumentVersion", 10, 1, FTD_CHAR, 0, 10},
        {"VolumeType", "FTDVolumeType", 11, 1, FTD_CHAR, 0, 26},
        {"Direction", "FTDDirection", 12, 1, FTD_CHAR, 0, 5},
        {"Price", "FTDPrice", 13, 12, FTD_FLOAT, 4, 0},
        {"Volume", "FTDVolume", 25, 4, FTD_INT, 0, 0},
        {"BroadcastSequenceNo", "FTDIntType", 29, 4, FTD_INT, 0, 0},
        /* 0x000E OrderStatusField */
        {"OrderSysId", "FTDSysOrderId", 0, 20, FTD_TEXT, 0, 0},
        {"OrderLocalId", "FTDLocalId", 20, 24, FTD_TEXT, 0, 0},
        {"UserId", "FTDUserId", 44, 15, FTD_TEXT, 0, 0},
        {"ParticipantId", "FTDParticipantId", 59, 8, FTD_TEXT, 0, 0},
        {"ClientId", "FTDClientId", 67, 8, FTD_TEXT, 0, 0},
        {"InstrumentId", "FTDInstrumentId", 75, 10, FTD_TEXT, 0, 0},
        {"Direction", "FTDDirection", 85, 1, FTD_CHAR, 0, 5},
        {"OffsetFlag", "FTDOffsetFlag", 86, 1, FTD_CHAR, 0, 16},
        {"HedgeFlag", "FTDHedgeFlag", 87, 1, FTD_CHAR, 0, 7},
        {"StopPrice", "FTDPrice", 88, 12, FTD_FLOAT, 4, 0},
        {"LimitPrice", "FTDPrice", 100, 12, FTD_FLOAT, 4, 0},
        {"VolumeTotalOriginal", "FTDIntType", 112, 4, FTD_INT, 0, 0},
        {"OrderType", "FTDOrderType", 116, 1, FTD_CHAR, 0, 18},
        {"VolumeTotal", "FTDIntType", 117, 4, FTD_INT, 0, 0},
        {"MatchCondition", "FTDMatchCondition", 121, 1, FTD_CHAR, 0, 12},
        {"MatchSession", "FTDMatchSession", 122, 1, FTD_CHAR, 0, 14},
        {"ValidThrough", "FTDDate", 123, 8, FTD_DAY, 0, 0},
        {"MinimalVolume", "FTDVolume", 131, 4, FTD_INT, 0, 0},
        {"AutoSuspend", "FTDBoolFlag", 135, 1, FTD_CHAR, 0, 2},
        {"OrderStatus", "FTDOrderStatus", 136, 1, FTD_CHAR, 0, 17},
        {"InsertTime", "FTDDateTime", 137, 20, FTD_TEXT, 0, 0},
        {"ActiveTime", "FTDTime", 157, 8, FTD_TEXT, 0, 0},
        {"SuspendTime", "FTDTime", 165, 8, FTD_TEXT, 0, 0},
        {"UpdateTime", "FTDTime", 173, 8, FTD_TEXT, 0, 0},
        {"ActiveUserId", "FTDUserId", 181, 15, FTD_TEXT, 0, 0},
        {"Margin", "FTDPrice", 196, 12, FTD_FLOAT, 4, 0},
        {"ForceGroupId", "FTDLocalId", 208, 24, FTD_TEXT, 0, 0},
        {"TradePrice", "FTDPrice", 232, 12, FTD_FLOAT, 4, 0},
        {"TradeVolume", "FTDIntType", 244, 4, FTD_INT, 0, 0},
        {"MessageReference", "FTDMsgRef", 248, 6, FTD_TEXT, 0, 0},
        /* 0x000F ParticipantField */
        {"ParticipantId", "FTDParticipantId", 0, 8, FTD_TEXT, 0, 0},
        {"ParticipantName", "FTDName", 8, 80, FTD_TEXT, 0, 0},
        {"ParticipantType", "FTDParticipantType", 88, 1, FTD_CHAR, 0, 19},
        {"PartiTrdRight", "FTDTradeRight", 89, 1, FTD_CHAR, 0, 22},
        /* 0x0010 PositionField */
        {"ParticipantId", "FTDParticipantId", 0, 8, FTD_TEXT, 0, 0},
        {"ClientId", "FTDClientId", 8, 8, FTD_TEXT, 0, 0},
        {"InstrumentId", "FTDInstrumentId", 16, 10, FTD_TEXT, 0, 0},
        {"InstrumentVersion", "FTDInstrumentVersion", 26, 1, FTD_CHAR, 0, 10},
        {"TradeDate", "FTDDate", 27, 8, FTD_DAY, 0, 0},
        {"YdBuyHedgePosition", "FTDVolume", 35, 4, FTD_INT, 0, 0},
        {"YdBuySpecPosition", "FTDVolume", 39, 4, FTD_INT, 0, 0},
        {"YdSellHedgePosition", "FTDVolume", 43, 4, FTD_INT, 0, 0},
        {"YdSellSpecPosition", "FTDVolume", 47, 4, FTD_INT, 0, 0},
        {"BuyHedgeVolume", "FTDVolume", 51, 4, FTD_INT, 0, 0},
        {"BuySpecVolume", "FTDVolume", 55, 4, FTD_INT, 0, 0},
        {"SellHedgeVolume", "FTDVolume", 59, 4, FTD_INT, 0, 0},
        {"SellSpecVolume", "FTDVolume", 63, 4, FTD_INT, 0, 0},
        {"BuyHedgePosition", "FTDVolume", 67, 4, FTD_INT, 0, 0},
        {"BuySpecPosition", "FTDVolume", 71, 4, FTD_INT, 0, 0},
        {"SellHedgePosition", "FTDVolume", 75, 4, FTD_INT, 0, 0},
        {"SellSpecPosition", "FTDVolume", 79, 4, FTD_INT, 0, 0},
        {"BuyOffsHPosition", "FTDVolume", 83, 4, FTD_INT, 0, 0},
        {"BuyOffsSPosition", "FTDVolume", 87, 4, FTD_INT, 0, 0},
        {"SellOffsHPosition", "FTDVolume", 91, 4, FTD_INT, 0, 0},
        {"SellOffsSPosition", "FTDVolume", 95, 4, FTD_INT, 0, 0},
        {"YdBuyOffsHPosition", "FTDVolume", 99, 4, FTD_INT, 0, 0},
        {"YdBuyOffsSPosition", "FTDVolume", 103, 4, FTD_INT, 0, 0},
        {"YdSellOffsHPosition", "FTDVolume", 107, 4, FTD_INT, 0, 0},
        {"YdSellOffsSPosition", "FTDVolume", 111, 4, FTD_INT, 0, 0},
        {"LongOpenFrozHPosition", "FTDVolume", 115, 4, FTD_INT, 0, 0},
        {"LongOpenFrozSPosition", "FTDVolume", 119, 4, FTD_INT, 0, 0},
        {"ShortOpenFrozHPosition", "FTDVolume", 123, 4, FTD_INT, 0, 0},
        {"ShortOpenFrozSPosition", "FTDVolume", 127, 4, FTD_INT, 0, 0},
        {"LongOffsFrozHPosition", "FTDVolume", 131, 4, FTD_INT, 0, 0},
        {"LongOffsFrozSPosition", "FTDVolume", 135, 4, FTD_INT, 0, 0},
        {"ShortOffsFrozHPosition", "FTDVolume", 139, 4, FTD_INT, 0, 0},
        {"ShortOffsFrozSPosition", "FTDVolume", 143, 4, FTD_INT, 0, 0},
        {"YdLongOffsFrozHPosition", "FTDVolume", 147, 4, FTD_INT, 0, 0},
        {"YdLongOffsFrozSPosition", "FTDVolume", 151, 4, FTD_INT, 0, 0},
        {"YdShortOffsFrozHPosition", "FTDVolume", 155, 4, FTD_INT, 0, 0},
        {"YdShortOffsFrozSPosition", "FTDVolume", 159, 4, FTD_INT, 0, 0},
        /* 0x0011 PPositionField */
        {"ParticipantId", "FTDParticipantId", 0, 8, FTD_TEXT, 0, 0},
        {"InstrumentId", "FTDInstrumentId", 8, 10, FTD_TEXT, 0, 0},
        {"InstrumentVersion", "FTDInstrumentVersion", 18, 1, FTD_CHAR, 0, 10},
        {"TradeDate", "FTDDate", 19, 8, FTD_DAY, 0, 0},
        {"YdBuyHedgePosition", "FTDVolume", 27, 4, FTD_INT, 0, 0},
        {"YdBuySpecPosition", "FTDVolume", 31, 4, FTD_INT, 0, 0},
        {"YdSellHedgePosition", "FTDVolume", 35, 4, FTD_INT, 0, 0},
        {"YdSellSpecPosition", "FTDVolume", 39, 4, FTD_INT, 0, 0},
        {"BuyHedgeVolume", "FTDVolume", 43, 4, FTD_INT, 0, 0},
        {"BuySpecVolume", "FTDVolume", 47, 4, FTD_INT, 0, 0},
        {"SellHedgeVolume", "FTDVolume", 51, 4, FTD_INT, 0, 0},
        {"SellSpecVolume", "FTDVolume", 55, 4, FTD_INT, 0, 0},
        {"BuyHedgePosition", "FTDVolume", 59, 4, FTD_INT, 0, 0},
        {"BuySpecPosition", "FTDVolume", 63, 4, FTD_INT, 0, 0},
        {"SellHedgePosition", "FTDVolume", 67, 4, FTD_INT, 0, 0},
        {"SellSpecPosition", "FTDVolume", 71, 4, FTD_INT, 0, 0},
        {"BuyOffsHPosition", "FTDVolume", 75, 4, FTD_INT, 0, 0},
        {"BuyOffsSPosition", "FTDVolume", 79, 4, FTD_INT, 0, 0},
        {"SellOffsHPosition", "FTDVolume", 83, 4, FTD_INT, 0, 0},
        {"SellOffsSPosition", "FTDVolume", 87, 4, FTD_INT, 0, 0},
        {"YdBuyOffsHPosition", "FTDVolume", 91, 4, FTD_INT, 0, 0},
        {"YdBuyOffsSPosition", "FTDVolume", 95, 4, FTD_INT, 0, 0},
        {"YdSellOffsHPosition", "FTDVolume", 99, 4, FTD_INT, 0, 0},
        {"YdSellOffsSPosition", "FTDVolume", 103, 4, FTD_INT, 0, 0},
        {"LongOpenFrozHPosition", "FTDVolume", 107, 4, FTD_INT, 0, 0},
        {"LongOpenFrozSPosition", "FTDVolume", 111, 4, FTD_INT, 0, 0},
        {"ShortOpenFrozHPosition", "FTDVolume", 115, 4, FTD_INT, 0, 0},
        {"ShortOpenFrozSPosition", "FTDVolume", 119, 4, FTD_INT, 0, 0},
        {"LongOffsFrozHPosition", "FTDVolume", 123, 4, FTD_INT, 0, 0},
        {"LongOffsFrozSPosition", "FTDVolume", 127, 4, FTD_INT, 0, 0},
        {"ShortOffsFrozHPosition", "FTDVolume", 131, 4, FTD_INT, 0, 0},
        {"ShortOffsFrozSPosition", "FTDVolume", 135, 4, FTD_INT, 0, 0},
        {"YdLongOffsFrozHPosition", "FTDVolume", 139, 4, FTD_INT, 0, 0},
        {"YdLongOffsFrozSPosition", "FTDVolume", 143, 4, FTD_INT, 0, 0},
        {"YdShortOffsFrozHPosition", "FTDVolume", 147, 4, FTD_INT, 0, 0},
        {"YdShortOffsFrozSPosition", "FTDVolume", 151, 4, FTD_INT, 0, 0},
        /* 0x0012 MarketMatchDataChgField */
        {"InstrumentId", "FTDInstrumentId", 0, 10, FTD_TEXT, 0, 0},
        {"InstrumentVersion", "FTDInstrumentVersion", 10, 1, FTD_CHAR, 0, 10},
        {"OpenPrice", "FTDPrice", 11, 12, FTD_FLOAT, 4, 0},
        {"HighPrice", "FTDPrice", 23, 12, FTD_FLOAT, 4, 0},
        {"LowPrice", "FTDPrice", 35, 12, FTD_FLOAT, 4, 0},
        {"LastPrice", "FTDPrice", 47, 12, FTD_FLOAT, 4, 0},
        {"BidPrice", "FTDPrice", 59, 12, FTD_FLOAT, 4, 0},
        {"AskPrice", "FTDPrice", 71, 12, FTD_FLOAT, 4, 0},
        {"BidLot", "FTDVolume", 83, 4, FTD_INT, 0, 0},
        {"AskLot", "FTDVolume", 87, 4, FTD_INT, 0, 0},
        {"Volume", "FTDVolume", 91, 4, FTD_INT, 0, 0},
        {"OpenInterest", "FTDVolume", 95, 4, FTD_INT, 0, 0},
        /* 0x0013 MarketMatchDataField */
        {"InstrumentId", "FTDInstrumentId", 0, 10, FTD_TEXT, 0, 0},
        {"InstrumentVersion", "FTDInstrumentVersion", 10, 1, FTD_CHAR, 0, 10},
        {"PreClose", "FTDPrice", 11, 12, FTD_FLOAT, 4, 0},
        {"PreSettle", "FTDPrice", 23, 12, FTD_FLOAT, 4, 0},
        {"PreOpenInterest", "FTDVolume", 35, 4, FTD_INT, 0, 0},
        {"OpenPrice", "FTDPrice", 39, 12, FTD_FLOAT, 4, 0},
        {"BidPrice", "FTDPrice", 51, 12, FTD_FLOAT, 4, 0},
        {"BidLot", "FTDVolume", 63, 4, FTD_INT, 0, 0},
        {"AskPrice", "FTDPrice", 67, 12, FTD_FLOAT, 4, 0},
        {"AskLot", "FTDVolume", 79, 4, FTD_INT, 0, 0},
        {"LastPrice", "FTDPrice", 83, 12, FTD_FLOAT, 4, 0},
        {"LastLot", "FTDVolume", 95, 4, FTD_INT, 0, 0},
        {"TradeLot", "FTDIntType", 99, 4, FTD_INT, 0, 0},
        {"TradeTurnover", "FTDVolume", 103, 4, FTD_INT, 0, 0},
        {"OpenInterest", "FTDVolume", 107, 4, FTD_INT, 0, 0},
        {"HighPrice", "FTDPrice", 111, 12, FTD_FLOAT, 4, 0},
        {"LowPrice", "FTDPrice", 123, 12, FTD_FLOAT, 4, 0},
        {"ClosePrice", "FTDPrice", 135, 12, FTD_FLOAT, 4, 0},
        {"SettlePrice", "FTDPrice", 147, 12, FTD_FLOAT, 4, 0},
        {"ClearPrice", "FTDPrice", 159, 12, FTD_FLOAT, 4, 0},
        {"AveragePrice", "FTDPrice", 171, 12, FTD_FLOAT, 4, 0},
        {"LifeHigh", "FTDPrice", 183, 12, FTD_FLOAT, 4, 0},
        {"LifeLow", "FTDPrice", 195, 12, FTD_FLOAT, 4, 0},
        {"HighLimit", "FTDPrice", 207, 12, FTD_FLOAT, 4, 0},
        {"LowLimit", "FTDPrice", 219, 12, FTD_FLOAT, 4, 0},
        {"TotalVolume", "FTDVolume", 231, 4, FTD_INT, 0, 0},
        {"UpdateTime", "FTDTime", 235, 8, FTD_TEXT, 0, 0},
        {"MarketMatchDataStatus", "FTDBoolFlag", 243, 1, FTD_CHAR, 0, 2},
        {"TotalMarketMatchData", "FTDIntType", 244, 4, FTD_INT, 0, 0},
        {"BroadcastSequenceNo", "FTDIntType", 248, 4, FTD_INT, 0, 0},
        /* 0x0014 ReqQryClientField */
        {"ParticipantId", "FTDParticipantId", 0, 8, FTD_TEXT, 0, 0},
        {"ClientId", "FTDClientId", 8, 8, FTD_TEXT, 0, 0},
        /* 0x0015 ReqQryDepositField */
        {"ParticipantId", "FTDParticipantId", 0, 8, FTD_TEXT, 0, 0},
        /* 0x0016 ReqQryInstrumentField */
        {"MarketId", "FTDMarketId", 0, 10, FTD_TEXT, 0, 0},
        {"InstrumentId", "FTDInstrumentId", 10, 10, FTD_TEXT, 0, 0},
        /* 0x0017 ReqQryInstrumentStatusField */
        {"MarketId", "FTDMarketId", 0, 10, FTD_TEXT, 0, 0},
        {"InstrumentId", "FTDInstrumentId", 10, 10, FTD_TEXT, 0, 0},
        /* 0x0018 ReqQryMarketField */
        {"MarketId", "FTDMarketId", 0, 10, FTD_TEXT, 0, 0},
        /* 0x0019 ReqQryMarketStatusField */
        {"MarketId", "FTDMarketId", 0, 10, FTD_TEXT, 0, 0},
        /* 0x001A ReqQryOrderField */
        {"InstrumentId", "FTDInstrumentId", 0, 10, FTD_TEXT, 0, 0},
        {"InstrumentVersion", "FTDInstrumentVersion", 10, 1, FTD_CHAR, 0, 10},
        {"ParticipantId", "FTDParticipantId", 11, 8, FTD_TEXT, 0, 0},
        {"UserId", "FTDUserId", 19, 15, FTD_TEXT, 0, 0},
        {"ClientId", "FTDClientId", 34, 8, FTD_TEXT, 0, 0},
        {"OrderSysId", "FTDSysOrderId", 42, 20, FTD_TEXT, 0, 0},
        /* 0x001B ReqQryMarketOrderDataField */
        {"InstrumentId", "FTDInstrumentId", 0, 10, FTD_TEXT, 0, 0},
        {"Direction", "FTDDirection", 10, 1, FTD_CHAR, 0, 5},
        /* 0x001C ReqQryParticipantField */
        {"ParticipantId", "FTDParticipantId", 0, 8, FTD_TEXT, 0, 0},
        /* 0x001D ReqQryPositionField */
        {"ParticipantId", "FTDParticipantId", 0, 8, FTD_TEXT, 0, 0},
        {"ClientId", "FTDClientId", 8, 8, FTD_TEXT, 0, 0},
        {"InstrumentId", "FTDInstrumentId", 16, 10, FTD_TEXT, 0, 0},
        /* 0x001E ReqQryPPositionField */
        {"ParticipantId", "FTDParticipantId", 0, 8, FTD_TEXT, 0, 0},
        {"InstrumentId", "FTDInstrumentId", 8, 10, FTD_TEXT, 0, 0},
        /* 0x001F ReqQryMarketMatchDataField */
        {"InstrumentId", "FTDInstrumentId", 0, 10, FTD_TEXT, 0, 0},
        /* 0x0020 ReqQryTradeField */
        {"InstrumentId", "FTDInstrumentId", 0, 10, FTD_TEXT, 0, 0},
        {"InstrumentVersion", "FTDInstrumentVersion", 10, 1, FTD_CHAR, 0, 10},
        {"ParticipantId", "FTDParticipantId", 11, 8, FTD_TEXT, 0, 0},
        {"UserId", "FTDUserId", 19, 15, FTD_TEXT, 0, 0},
        {"ClientId", "FTDClientId", 34, 8, FTD_TEXT, 0, 0},
        {"OrderSysId", "FTDSysOrderId", 42, 20, FTD_TEXT, 0, 0},
        {"StartTime", "FTDTime", 62, 8, FTD_TEXT, 0, 0},
        {"ThroughTime", "FTDTime", 70, 8, FTD_TEXT, 0, 0},
        /* 0x0021 ReqQryUserField */
        {"ParticipantId", "FTDParticipantId", 0, 8, FTD_TEXT, 0, 0},
        {"UserId", "FTDUserId", 8, 15, FTD_TEXT, 0, 0},
        /* 0x0022 ReqQryUserLoginField */
        {"ParticipantId", "FTDParticipantId", 0, 8, FTD_TEXT, 0, 0},
        {"UserId", "FTDUserId", 8, 15, FTD_TEXT, 0, 0},
        /* 0x0023 ReqUserLoginField */
        {"DataFlowFlag", "FTDDataFlowFlag", 0, 1, FTD_CHAR, 0, 4},
        {"ParticipantId", "FTDParticipantId", 1, 8, FTD_TEXT, 0, 0},
        {"UserId", "FTDUserId", 9, 15, FTD_TEXT, 0, 0},
        {"Password", "FTDPassword", 24, 40, FTD_TEXT, 0, 0},
        {"ConnectionReference", "FTDConnectionReference", 64, 5, FTD_TEXT, 0, 0},
        {"ServerAppName", "FTDServerAppName", 69, 20, FTD_TEXT, 0, 0},
        {"ProtocolVersion", "FTDProtocolVersion", 89, 8, FTD_TEXT, 0, 0},
        {"TimeOut", "FTDTimeOut", 97, 3, FTD_NUMBER, 0, 0},
        {"IpAddr", "FTDStringType<20>", 100, 20, FTD_TEXT, 0, 0},
        /* 0x0024 ReqUserLogoutField */
        {"DataFlowFlag", "FTDDataFlowFlag", 0, 1, FTD_CHAR, 0, 4},
        {"ParticipantId", "FTDParticipantId", 1, 8, FTD_TEXT, 0, 0},
        {"UserId", "FTDUserId", 9, 15, FTD_TEXT, 0, 0},
        /* 0x0025 ReqUserPasswordUpdateField */
        {"ParticipantId", "FTDParticipantId", 0, 8, FTD_TEXT, 0, 0},
        {"UserId", "FTDUserId", 8, 15, FTD_TEXT, 0, 0},
        {"NewPassword", "FTDPassword", 23, 40, FTD_TEXT, 0, 0},
        {"OldPassword", "FTDPassword", 63, 40, FTD_TEXT, 0, 0},
        /* 0x0026 MarketField */
        {"MarketId", "FTDMarketId", 0, 10, FTD_TEXT, 0, 0},
        {"MarketName", "FTDName", 10, 80, FTD_TEXT, 0, 0},
        {"BroadcastSequenceSeries", "FTDWordType", 90, 2, FTD_WORD, 0, 0},
        {"TradeType", "FTDTradeType", 92, 1, FTD_CHAR, 0, 23},
        /* 0x0027 RspUserLoginField */
        {"DataFlowFlag", "FTDDataFlowFlag", 0, 1, FTD_CHAR, 0, 4},
        {"ParticipantId", "FTDParticipantId", 1, 8, FTD_TEXT, 0, 0},
        {"UserId", "FTDUserId", 9, 15, FTD_TEXT, 0, 0},
        {"Password", "FTDPassword", 24, 40, FTD_TEXT, 0, 0},
        {"ExchangeDateTime", "FTDDateTime", 64, 20, FTD_TEXT, 0, 0},
        {"TimeSpan", "FTDNumberType<3>", 84, 3, FTD_NUMBER, 0, 0},
        {"IpAddr", "FTDStringType<20>", 87, 20, FTD_TEXT, 0, 0},
        {"MaxOrderLocalId", "FTDLocalId", 107, 24, FTD_TEXT, 0, 0},
        /* 0x0028 RspUserLogoutField */
        {"DataFlowFlag", "FTDDataFlowFlag", 0, 1, FTD_CHAR, 0, 4},
        {"ParticipantId", "FTDParticipantId", 1, 8, FTD_TEXT, 0, 0},
        {"UserId", "FTDUserId", 9, 15, FTD_TEXT, 0, 0},
        {"ExchangeDateTime", "FTDDateTime", 24, 20, FTD_TEXT, 0, 0},
        /* 0x0029 RspUserPasswordUpdateField */
        {"ParticipantId", "FTDParticipantId", 0, 8, FTD_TEXT, 0, 0},
        {"UserId", "FTDUserId", 8, 15, FTD_TEXT, 0, 0},
        {"NewPassword", "FTDPassword", 23, 40, FTD_TEXT, 0, 0},
        /* 0x002A TradeInsertSingleField */
        {"InstrumentId", "FTDInstrumentId", 0, 10, FTD_TEXT, 0, 0},
        {"InstrumentVersion", "FTDInstrumentVersion", 10, 1, FTD_CHAR, 0, 10},
        {"CancelFlag", "FTDBoolFlag", 11, 1, FTD_CHAR, 0, 2},
        {"CancelDate", "FTDDate", 12, 8, FTD_DAY, 0, 0},
        {"CancelTime", "FTDTime", 20, 8, FTD_TEXT, 0, 0},
        {"TradeId", "FTDTradeId", 28, 20, FTD_TEXT, 0, 0},
        {"MatchDate", "FTDDate", 48, 8, FTD_DAY, 0, 0},
        {"MatchTime", "FTDTime", 56, 8, FTD_TEXT, 0, 0},
        {"ClearDate", "FTDDate", 64, 8, FTD_DAY, 0, 0},
        {"Price", "FTDPrice", 72, 12, FTD_FLOAT, 4, 0},
        {"Volume", "FTDVolume", 84, 4, FTD_INT, 0, 0},
        {"OrderSysId", "FTDSysOrderId", 88, 20, FTD_TEXT, 0, 0},
        {"UserId", "FTDUserId", 108, 15, FTD_TEXT, 0, 0},
        {"Direction", "FTDDirection", 123, 1, FTD_CHAR, 0, 5},
        {"OffsetFlag", "FTDOffsetFlag", 124, 1, FTD_CHAR, 0, 16},
        {"HedgeFlag", "FTDHedgeFlag", 125, 1, FTD_CHAR, 0, 7},
        {"ParticipantId", "FTDParticipantId", 126, 8, FTD_TEXT, 0, 0},
        {"ClientId", "FTDClientId", 134, 8, FTD_TEXT, 0, 0},
        {"OrderLocalId", "FTDLocalId", 142, 24, FTD_TEXT, 0, 0},
        /* 0x002B UserField */
        {"UserId", "FTDUserId", 0, 15, FTD_TEXT, 0, 0},
        {"ParticipantId", "FTDParticipantId", 15, 8, FTD_TEXT, 0, 0},
        {"Name", "FTDStringType<20>", 23, 20, FTD_TEXT, 0, 0},
        {"IsLogin", "FTDBoolFlag", 43, 1, FTD_CHAR, 0, 2},
        {"UserStatus", "FTDUserStatus", 44, 1, FTD_CHAR, 0, 24},
        {"UserType", "FTDUserType", 45, 1, FTD_CHAR, 0, 25},
        /* 0x002C UserLoginField */
        {"ParticipantId", "FTDParticipantId", 0, 8, FTD_TEXT, 0, 0},
        {"UserId", "FTDUserId", 8, 15, FTD_TEXT, 0, 0},
        {"IpAddr", "FTDStringType<20>", 23, 20, FTD_TEXT, 0, 0},
        {"DialogStreamStatus", "FTDBoolFlag", 43, 1, FTD_CHAR, 0, 2},
        {"DialogLoginTime", "FTDDateTime", 44, 20, FTD_TEXT, 0, 0},
        {"DialogLogoutTime", "FTDDateTime", 64, 20, FTD_TEXT, 0, 0},
        {"PrivateStreamStatus", "FTDBoolFlag", 84, 1, FTD_CHAR, 0, 2},
        {"PrivateLoginTime", "FTDDateTime", 85, 20, FTD_TEXT, 0, 0},
        {"PrivateLogoutTime", "FTDDateTime", 105, 20, FTD_TEXT, 0, 0},
        {"BroadcastStreamStatus", "FTDBoolFlag", 125, 1, FTD_CHAR, 0, 2},
        {"BroadcastLoginTime", "FTDDateTime", 126, 20, FTD_TEXT, 0, 0},
        {"BroadcastLogoutTime", "FTDDateTime", 146, 20, FTD_TEXT, 0, 0},
        {"FrontId", "FTDStringType<20>", 166, 20, FTD_TEXT, 0, 0},
        /* 0x002D ErrorTargetOrderField */
        {"OrderSysId", "FTDSysOrderId", 0, 20, FTD_TEXT, 0, 0},
        {"OrderLocalId", "FTDLocalId", 20, 24, FTD_TEXT, 0, 0},
        /* 0x002E ErrorTargetSequenceField */
        {"SequenceSeries", "FTDSequenceSeries", 0, 2, FTD_WORD, 0, 0},
        {"SequenceNo", "FTDSequenceNo", 2, 4, FTD_INT, 0, 0}
    };
    const struct ftd_field_names *field = ftd_field_names_of(fid);

    return field != NULL && i < field->count ? &items[field->first + i] : NULL;
}

/* The name of a field, as "BulletinField", and of its item i, as "NewsType". */
static inline const char *ftd_fid_name(uint32_t fid) {
    const struct ftd_field_names *field = ftd_field_names_of(fid);

    return field != NULL ? field->name : NULL;
}

static inline const char *ftd_item_name(uint32_t fid, size_t i) {
    const struct ftd_item_names *item = ftd_item_names_of(fid, i);

    return item != NULL ? item->name : NULL;
}

/* The meaning of a value of an enumeration (`listed` of struct ftd_item_names). */
static inline const char *ftd_listed_value_name(uint8_t listed, uint64_t value) {
    static const struct {
        uint8_t listed, value;
        const char *meaning;
    } values[] = {
        /* FTDActionFlag */
        {1, 0, "delete"},
        {1, 1, "suspend"},
        {1, 2, "activate"},
        /* FTDBoolFlag */
        {2, 0, "false"},
        {2, 1, "true"},
        /* FTDClientType */
        {3, 0, "natural person"},
        {3, 1, "legal person"},
        /* FTDDataFlowFlag */
        {4, 0, "dialog flow"},
        {4, 1, "private flow"},
        {4, 2, "broadcast flow"},
        /* FTDDirection */
        {5, 0, "buy"},
        {5, 1, "sell"},
        /* FTDForceExitCode */
        {6, 0, "none but this at present"},
        /* FTDHedgeFlag */
        {7, 0, "unused"},
        {7, 1, "speculation"},
        {7, 3, "hedging"},
        /* FTDInstrumentStatus */
        {8, 0, "continuous trading"},
        {8, 1, "opening auction"},
        {8, 2, "closing auction"},
        {8, 3, "halted"},
        {8, 4, "not trading"},
        /* FTDInstrumentType */
        {9, 0, "none but this at present"},
        /* FTDInstrumentVersion */
        {10, 0, "none but this at present"},
        /* FTDMarketStatus */
        {11, 0, "continuous trading"},
        {11, 1, "opening auction"},
        {11, 2, "closing auction"},
        {11, 3, "halted"},
        {11, 4, "not trading"},
        /* FTDMatchCondition */
        {12, 0, "unused"},
        {12, 1, "all at once or none"},
        {12, 2, "at once in part"},
        {12, 3, "good for the day"},
        {12, 4, "good till cancelled"},
        {12, 5, "good till date"},
        /* FTDMatchFlag */
        {13, 0, "both open"},
        {13, 1, "both close"},
        {13, 2, "different"},
        /* FTDMatchSession */
        {14, 0, "unused"},
        {14, 1, "opening auction"},
        {14, 2, "continuous trading"},
        {14, 3, "opening auction and continuous trading"},
        {14, 4, "closing auction"},
        {14, 5, "opening and closing auction"},
        {14, 6, "continuous trading and closing auction"},
        {14, 7, "opening auction, continuous trading and closing auction"},
        /* FTDNewsUrgency */
        {15, 0, "not urgent"},
        {15, 1, "urgent"},
        /* FTDOffsetFlag */
        {16, 0, "open"},
        {16, 1, "close"},
        {16, 2, "forced close"},
        {16, 3, "forced reduction"},
        /* FTDOrderStatus */
        {17, 0, "all traded"},
        {17, 1, "part traded, queueing"},
        {17, 2, "part traded, not queueing"},
        {17, 3, "not traded, queueing"},
        {17, 4, "not traded, not queueing"},
        {17, 5, "withdrawn"},
        /* FTDOrderType */
        {18, 0, "limit"},
        {18, 1, "market"},
        {18, 2, "stop limit"},
        {18, 3, "stop market"},
        {18, 4, "market to limit"},
        {18, 5, "best price"},
        {18, 6, "average price"},
        /* FTDParticipantType */
        {19, 0, "own account"},
        {19, 1, "broker"},
        {19, 2, "own account and broker"},
        {19, 3, "special"},
        {19, 4, "market maker"},
        /* FTDPubStyle */
        {20, 0, "not published"},
        {20, 1, "published"},
        /* FTDStopCode */
        {21, 0, "none but this at present"},
        /* FTDTradeRight */
        {22, 0, "full"},
        {22, 1, "close only"},
        {22, 2, "no trading"},
        /* FTDTradeType */
        {23, 0, "none but this at present"},
        /* FTDUserStatus */
        {24, 0, "none but this at present"},
        /* FTDUserType */
        {25, 0, "none but this at present"},
        /* FTDVolumeType */
        {26, 0, "increment"},
        {26, 1, "absolute"}
    };
    size_t i;

    for (i = 0; i < sizeof values / sizeof values[0]; i++)
        if (values[i].listed == listed && values[i].value == value)
            return values[i].meaning;
    return NULL;
}

/* The meaning of a value of item i of a field; also null where the item has no enumeration. */
static inline const char *ftd_value_name(uint32_t fid, size_t i, uint64_t value) {
    const struct ftd_item_names *item = ftd_item_names_of(fid, i);

    return item != NULL ? ftd_listed_value_name(item->listed, value) : NULL;
}

/* A refusal in a word or two, as "broken tag", and in the words of enum ftd_refusal. 0 is none
 * of them. */
static inline const char *ftd_refusal_name(uint8_t number) {
    switch (number) {
    case FTD_LONG_EXTENSION:
        return "long extension";
    case FTD_BROKEN_TAG:
        return "broken tag";
    case FTD_BODY_LENGTH:
        return "body length";
    case FTD_VERSION:
        return "version";
    case FTD_CHAIN_LETTER:
        return "chain letter";
    case FTD_CONTENT_LENGTH:
        return "content length";
    case FTD_FIELD_RUN:
        return "field run";
    case FTD_FIELD_LENGTH:
        return "field length";
    case FTD_ITEM:
        return "item";
    case FTD_COMPOSITION:
        return "make-up";
    case FTD_OPENING:
        return "opening";
    case FTD_NOT_ONE_PACKET:
        return "not one packet";
    case FTD_UNKNOWN_SERIES:
        return "unknown series";
    case FTD_NOT_LOGGED_IN:
        return "not logged in";
    case FTD_OTHER_DAY:
        return "other day";
    case FTD_OUT_OF_LINE:
        return "out of line";
    case FTD_BROKEN_CHAIN:
        return "broken chain";
    case FTD_TOO_SMALL:
        return "too small";
    case FTD_WRONG_START:
        return "wrong start";
    case FTD_DAMAGED_LOG:
        return "damaged log";
    case FTD_DAY_FULL:
        return "day full";
    case FTD_QUANTITY:
        return "quantity";
    case FTD_LEVELS:
        return "levels";
    case FTD_VOLUME:
        return "volume";
    case FTD_NO_SEAT:
        return "no seat";
    case FTD_SESSIONS:
        return "sessions";
    case FTD_HOLIDAY:
        return "holiday";
    case FTD_NOT_ONE_FRAME:
        return "not one frame";
    case FTD_REQUIRED_TAG:
        return "required tag";
    case FTD_LOW_NUMBER:
        return "low number";
    case FTD_WRONG_NAME:
        return "wrong name";
    case FTD_FIFTH_NAME:
        return "fifth name";
    case FTD_UNKNOWN_NAME:
        return "unknown name";
    case FTD_NOT_PLAIN:
        return "not plain";
    default:
        return NULL;
    }
}

static inline const char *ftd_refusal_words(uint8_t number) {
    switch (number) {
    case FTD_LONG_EXTENSION:
        return "a packet's extension has more than 127 bytes";
    case FTD_BROKEN_TAG:
        return "tags don't end with the extension, a known tag has a wrong length, tag 0x05 or 0x70 stands twice";
    case FTD_BODY_LENGTH:
        return "a packet of type 1 has a body of 1 to 15 or of more than 4096 bytes";
    case FTD_VERSION:
        return "a message packet's version isn't 1";
    case FTD_CHAIN_LETTER:
        return "a message packet's chain letter isn't S, F, C or L";
    case FTD_CONTENT_LENGTH:
        return "a message packet's content length isn't that of its body less 16";
    case FTD_FIELD_RUN:
        return
            "the content isn't whole data fields, or not as many as the packet says; content given to a call: also a "
            "field of more than 4074 bytes, or too many bytes in all";
    case FTD_FIELD_LENGTH:
        return "a data field with a known FID has another length than its items together";
    case FTD_ITEM:
        return "an item is no value of its type; a Date is all spaces, or a real date of the years 1601 to 9999";
    case FTD_COMPOSITION:
        return
            "make-up: a data field occurs too seldom or too often for its message; in a login also: another TID than "
            "0x0016, not one packet (S), a start field too many";
    case FTD_OPENING:
        return
            "not 1 to 8 differing series from 1 up, a trade date that isn't above the present one, not as many "
            "reserves as series, reserves together above the log's length; a receiving end or a box that is open "
            "already";
    case FTD_NOT_ONE_PACKET:
        return "not exactly the bytes of one packet; in a login also: no message packet";
    case FTD_UNKNOWN_SERIES:
        return "the series isn't open; ftd_login also: the start field is of another series";
    case FTD_NOT_LOGGED_IN:
        return "no login of the series";
    case FTD_OTHER_DAY:
        return
            "ftd_receive: another trade date than the day's; ftd_confirm_login: a lower one or none; ftd_login: a "
            "higher one; the box also: ftd_box_confirm_login with a date below the open day's, ftd_box_receive of a "
            "series whose date is below it";
    case FTD_OUT_OF_LINE:
        return
            "ftd_receive: number 0, above last + 1 or above 1000000; in a login: series and number of the packet "
            "aren't 0";
    case FTD_BROKEN_CHAIN:
        return "C or L without its chain; a place (tag 0x70) that isn't the count of the packets held";
    case FTD_TOO_SMALL:
        return
            "the output or the reassembly buffer has too few bytes, or a chain too many; ftd_publish: the shares of "
            "all series (ftd_sender_open) would pass the log's length";
    case FTD_WRONG_START:
        return "the login wants number 0, or one above those published and the next";
    case FTD_DAMAGED_LOG:
        return "the log isn't as the last call left it";
    case FTD_DAY_FULL:
        return "1000000 messages are published in the series";
    case FTD_QUANTITY:
        return "ftd_book_take: a quotation or a match makes a quantity below 0 or above 4294967295";
    case FTD_LEVELS:
        return "ftd_book_take: a 65th level of a side";
    case FTD_VOLUME:
        return
            "ftd_book_take: a match of a volume above 1000000, or one that makes a sum beyond 9000000000000000000 on "
            "either side of zero";
    case FTD_NO_SEAT:
        return "the box: a seat number above 15";
    case FTD_SESSIONS:
        return
            "ftd_set_calendar: more than 8 sessions, one without a second or with an end above 86400, two that "
            "overlap, numbers that aren't three for each";
    case FTD_HOLIDAY:
        return "ftd_set_calendar: more than 32 holidays, or one that isn't a real date";
    case FTD_NOT_ONE_FRAME:
        return "frames: not exactly the bytes of one whole frame, or a number wrong";
    case FTD_REQUIRED_TAG:
        return "frames: a required tag missing, it or the flag (43) twice";
    case FTD_LOW_NUMBER:
        return "ftd_frame_read: a number lower than the expected one, without the flag";
    case FTD_WRONG_NAME:
        return "ftd_keep, ftd_return: not 1 to 8 letters A to Z";
    case FTD_FIFTH_NAME:
        return "ftd_keep: the name isn't in use, and four are";
    case FTD_UNKNOWN_NAME:
        return "ftd_return: the name isn't in use";
    case FTD_NOT_PLAIN:
        return "ftd_write_plain alone: neither a link packet nor a skipped one; not in the table";
    default:
        return NULL;
    }
}

/* A mode (enum ftd_mode), and a kind of values (enum ftd_kind). */
static inline const char *ftd_mode_name(uint8_t number) {
    switch (number) {
    case FTD_UNKNOWN:
        return "unknown";
    case FTD_PRIVATE:
        return "private";
    case FTD_BROADCAST:
        return "broadcast";
    case FTD_MANAGEMENT:
        return "management";
    case FTD_DIALOG:
        return "dialog";
    default:
        return NULL;
    }
}

static inline const char *ftd_kind_name(uint8_t number) {
    switch (number) {
    case FTD_NO_ITEM:
        return "no item";
    case FTD_NO_VALUE:
        return "no value";
    case FTD_CHAR:
        return "char";
    case FTD_WORD:
        return "word";
    case FTD_INT:
        return "int";
    case FTD_TEXT:
        return "text";
    case FTD_NUMBER:
        return "number";
    case FTD_FLOAT:
        return "float";
    case FTD_DAY:
        return "date";
    case FTD_UNUSED:
        return "unused date";
    default:
        return NULL;
    }
}

#endif
