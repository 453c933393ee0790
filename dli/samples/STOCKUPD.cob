       IDENTIFICATION DIVISION.
       PROGRAM-ID. STOCKUPD.
      *----------------------------------------------------------------
      * BOOKS THE MOVEMENTS OF A DAY: EACH TRANSACTION HAS A PART, A
      * WAREHOUSE, + OR - AND A QUANTITY. GHU HOLDS THE STOCK, REPL
      * WRITES WHAT IS LEFT. A WAREHOUSE WITHOUT STOCK IS INSERTED.
      *----------------------------------------------------------------
       ENVIRONMENT DIVISION.
       INPUT-OUTPUT SECTION.
       FILE-CONTROL.
           SELECT MOVE-FILE ASSIGN TO MOVES
               ORGANIZATION IS LINE SEQUENTIAL.
       DATA DIVISION.
       FILE SECTION.
       FD  MOVE-FILE.
       01  MOVE-RECORD.
           05  MOVE-PART           PIC X(6).
           05  MOVE-WAREHOUSE      PIC X(3).
           05  MOVE-SIGN           PIC X.
           05  MOVE-QUANTITY       PIC 9(6).
       WORKING-STORAGE SECTION.
       77  GHU-FUNC                PIC X(4)  VALUE 'GHU '.
       77  REPL-FUNC               PIC X(4)  VALUE 'REPL'.
       77  ISRT-FUNC               PIC X(4)  VALUE 'ISRT'.
       77  THREE                   PIC S9(9) COMP VALUE +3.
       77  BOOKED                  PIC 9(5)  VALUE ZERO.
       77  REFUSED                 PIC 9(5)  VALUE ZERO.
       77  END-SWITCH              PIC X     VALUE 'N'.
           88  END-OF-MOVES                  VALUE 'Y'.
       01  STOCK-AREA.
           05  STOCK-WAREHOUSE     PIC X(3).
           05  STOCK-ON-HAND       PIC 9(6).
       01  PART-SSA.
           05  FILLER              PIC X(9)  VALUE 'PART    ('.
           05  FILLER              PIC X(10) VALUE 'PARTNO  EQ'.
           05  SSA-PART            PIC X(6).
           05  FILLER              PIC X     VALUE ')'.
       01  STOCK-SSA.
           05  FILLER              PIC X(9)  VALUE 'STOCK   ('.
           05  FILLER              PIC X(10) VALUE 'WHOUSE  EQ'.
           05  SSA-WAREHOUSE       PIC X(3).
           05  FILLER              PIC X     VALUE ')'.
       01  NEW-STOCK-SSA           PIC X(9)  VALUE 'STOCK    '.
       LINKAGE SECTION.
       01  PARTS-PCB.
           05  PCB-DBD             PIC X(8).
           05  PCB-LEVEL           PIC X(2).
           05  PCB-STATUS          PIC X(2).
           05  PCB-PROCOPT         PIC X(4).
           05  FILLER              PIC S9(5) COMP.
           05  PCB-SEGMENT         PIC X(8).
           05  PCB-KEY-LENGTH      PIC S9(5) COMP.
           05  PCB-SENSEGS         PIC S9(5) COMP.
           05  PCB-KEY             PIC X(16).
       PROCEDURE DIVISION USING PARTS-PCB.
       MAIN-LINE.
           OPEN INPUT MOVE-FILE.
           PERFORM READ-MOVE.
           PERFORM BOOK-MOVE THRU BOOK-MOVE-EXIT UNTIL END-OF-MOVES.
           CLOSE MOVE-FILE.
           DISPLAY 'STOCKUPD: ' BOOKED ' BOOKED, ' REFUSED ' REFUSED'.
           STOP RUN.
       READ-MOVE.
           READ MOVE-FILE
               AT END MOVE 'Y' TO END-SWITCH.
       BOOK-MOVE.
           MOVE MOVE-PART TO SSA-PART.
           MOVE MOVE-WAREHOUSE TO SSA-WAREHOUSE.
           CALL 'CBLTDLI' USING GHU-FUNC PARTS-PCB STOCK-AREA
               PART-SSA STOCK-SSA.
           IF PCB-STATUS = 'GE' AND MOVE-SIGN = '+'
               PERFORM INSERT-STOCK
               GO TO BOOK-MOVE-EXIT.
           IF PCB-STATUS NOT = SPACES
               PERFORM REFUSE-MOVE
               GO TO BOOK-MOVE-EXIT.
           IF MOVE-SIGN = '-' AND MOVE-QUANTITY > STOCK-ON-HAND
               PERFORM REFUSE-MOVE
               GO TO BOOK-MOVE-EXIT.
           IF MOVE-SIGN = '+'
               ADD MOVE-QUANTITY TO STOCK-ON-HAND
           ELSE
               SUBTRACT MOVE-QUANTITY FROM STOCK-ON-HAND.
           CALL 'CBLTDLI' USING THREE REPL-FUNC PARTS-PCB STOCK-AREA.
           IF PCB-STATUS = SPACES
               ADD 1 TO BOOKED
           ELSE
               PERFORM REFUSE-MOVE.
       BOOK-MOVE-EXIT.
           PERFORM READ-MOVE.
       INSERT-STOCK.
           MOVE MOVE-WAREHOUSE TO STOCK-WAREHOUSE.
           MOVE MOVE-QUANTITY TO STOCK-ON-HAND.
           CALL 'CBLTDLI' USING ISRT-FUNC PARTS-PCB STOCK-AREA
               PART-SSA NEW-STOCK-SSA.
           IF PCB-STATUS = SPACES
               ADD 1 TO BOOKED
           ELSE
               PERFORM REFUSE-MOVE.
       REFUSE-MOVE.
           ADD 1 TO REFUSED.
           DISPLAY 'NOT BOOKED ' MOVE-RECORD ' STATUS ' PCB-STATUS.
