       IDENTIFICATION DIVISION.
       PROGRAM-ID. ORDERIN.
      *----------------------------------------------------------------
      * TAKES IN WHAT SUPPLIERS DELIVERED: ONE PCB WALKS THROUGH THE
      * ORDERS, THE OTHER ADDS THEIR QUANTITIES TO THE STOCK IN HAMBURG.
      * AN ORDER THAT WAS TAKEN IN IS DELETED BY THE FIRST.
      *----------------------------------------------------------------
       ENVIRONMENT DIVISION.
       DATA DIVISION.
       WORKING-STORAGE SECTION.
       77  GHN-FUNC                PIC X(4)  VALUE 'GHN '.
       77  GHU-FUNC                PIC X(4)  VALUE 'GHU '.
       77  DLET-FUNC               PIC X(4)  VALUE 'DLET'.
       77  REPL-FUNC               PIC X(4)  VALUE 'REPL'.
       77  TAKEN                   PIC 9(5)  VALUE ZERO.
       01  ORDER-SSA               PIC X(9)  VALUE 'ORDER    '.
       01  ORDER-AREA.
           05  ORDER-NUMBER        PIC X(6).
           05  ORDER-QUANTITY      PIC 9(6).
       01  STOCK-AREA.
           05  STOCK-WAREHOUSE     PIC X(3).
           05  STOCK-ON-HAND       PIC 9(6).
       01  PART-SSA.
           05  FILLER              PIC X(9)  VALUE 'PART    ('.
           05  FILLER              PIC X(10) VALUE 'PARTNO  EQ'.
           05  SSA-PART            PIC X(6).
           05  FILLER              PIC X     VALUE ')'.
       01  STOCK-SSA               PIC X(23)
                                   VALUE 'STOCK   (WHOUSE  EQHAM)'.
       LINKAGE SECTION.
       01  ORDERS-PCB.
           05  OR-DBD              PIC X(8).
           05  OR-LEVEL            PIC X(2).
           05  OR-STATUS           PIC X(2).
           05  OR-PROCOPT          PIC X(4).
           05  FILLER              PIC S9(5) COMP.
           05  OR-SEGMENT          PIC X(8).
           05  OR-KEY-LENGTH       PIC S9(5) COMP.
           05  OR-SENSEGS          PIC S9(5) COMP.
           05  OR-KEY.
               10  OR-KEY-PART     PIC X(6).
               10  OR-KEY-SUPPLIER PIC X(4).
               10  OR-KEY-ORDER    PIC X(6).
       01  STOCK-PCB.
           05  ST-DBD              PIC X(8).
           05  ST-LEVEL            PIC X(2).
           05  ST-STATUS           PIC X(2).
           05  ST-PROCOPT          PIC X(4).
           05  FILLER              PIC S9(5) COMP.
           05  ST-SEGMENT          PIC X(8).
           05  ST-KEY-LENGTH       PIC S9(5) COMP.
           05  ST-SENSEGS          PIC S9(5) COMP.
           05  ST-KEY              PIC X(9).
       PROCEDURE DIVISION USING ORDERS-PCB STOCK-PCB.
       MAIN-LINE.
           PERFORM NEXT-ORDER.
           PERFORM TAKE-ORDER UNTIL OR-STATUS NOT = SPACES.
           IF OR-STATUS NOT = 'GE' AND OR-STATUS NOT = 'GB'
               DISPLAY 'ORDERIN: STATUS ' OR-STATUS
               MOVE 8 TO RETURN-CODE.
           DISPLAY 'ORDERIN: ' TAKEN ' ORDERS TAKEN IN'.
           GOBACK.
       NEXT-ORDER.
           CALL 'CBLTDLI' USING GHN-FUNC ORDERS-PCB ORDER-AREA
               ORDER-SSA.
       TAKE-ORDER.
           MOVE OR-KEY-PART TO SSA-PART.
           CALL 'CBLTDLI' USING GHU-FUNC STOCK-PCB STOCK-AREA
               PART-SSA STOCK-SSA.
           IF ST-STATUS = SPACES
               ADD ORDER-QUANTITY TO STOCK-ON-HAND
               CALL 'CBLTDLI' USING REPL-FUNC STOCK-PCB STOCK-AREA
               DISPLAY OR-KEY-PART ' ' ORDER-NUMBER ' '
                   ORDER-QUANTITY ' TO ' STOCK-WAREHOUSE
               CALL 'CBLTDLI' USING DLET-FUNC ORDERS-PCB ORDER-AREA
               ADD 1 TO TAKEN
           ELSE
               DISPLAY OR-KEY-PART ' ' ORDER-NUMBER ' LEFT: NO STOCK '
                   'IN HAM'.
           PERFORM NEXT-ORDER.
