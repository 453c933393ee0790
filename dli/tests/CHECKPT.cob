       IDENTIFICATION DIVISION.
       PROGRAM-ID. CHECKPT.
      *----------------------------------------------------------------
      * INSERTS PARTS BY RISING NUMBERS, AND TAKES A CHECKPOINT AFTER
      * EVERY TEN, OR DOES WHAT THE ENVIRONMENT'S DOING SAYS.
      *----------------------------------------------------------------
       DATA DIVISION.
       WORKING-STORAGE SECTION.
       77  ISRT-FUNC               PIC X(4)  VALUE 'ISRT'.
       77  GU-FUNC                 PIC X(4)  VALUE 'GU  '.
       77  GN-FUNC                 PIC X(4)  VALUE 'GN  '.
       77  IO-FUNC                 PIC X(4)  VALUE 'CHKP'.
       77  IDENTIFIER              PIC X(8)  VALUE 'CHECKPT1'.
       77  LONGEST                 PIC S9(9) COMP VALUE +32.
       77  DOING                   PIC X(8).
       77  MADE                    PIC 9(6)  VALUE ZERO.
       77  WANTED                  PIC 9(6)  VALUE ZERO.
       77  PART-SSA                PIC X(9)  VALUE 'PART     '.
       01  PART-AREA.
           05  PART-NUMBER         PIC 9(6)  VALUE ZERO.
           05  FILLER              PIC X(26) VALUE 'BY CHECKPT'.
       01  RESTART-AREA            PIC X(12) VALUE SPACES.
       LINKAGE SECTION.
       01  IO-PCB.
           05  FILLER              PIC X(10).
           05  IO-STATUS           PIC X(2).
       01  PARTS-PCB.
           05  PCB-DBD             PIC X(8).
           05  PCB-LEVEL           PIC X(2).
           05  PCB-STATUS          PIC X(2).
           05  PCB-PROCOPT         PIC X(4).
           05  FILLER              PIC S9(5) COMP.
           05  PCB-SEGMENT         PIC X(8).
           05  PCB-KEY-LENGTH      PIC S9(5) COMP.
           05  PCB-SENSEGS         PIC S9(5) COMP.
           05  PCB-KEY             PIC X(16).
       PROCEDURE DIVISION.
           ENTRY 'DLITCBL' USING IO-PCB PARTS-PCB.
       MAIN-LINE.
           ACCEPT DOING FROM ENVIRONMENT 'DOING'.
           MOVE 'XRST' TO IO-FUNC.
           CALL 'CBLTDLI' USING IO-FUNC IO-PCB LONGEST RESTART-AREA.
           PERFORM TELL-STATUS.
           IF DOING = 'RUN'
               PERFORM INSERT-TEN UNTIL MADE > 900000.
           MOVE 15 TO WANTED.
           PERFORM INSERT-PART UNTIL MADE = WANTED.
           MOVE 'CHKP' TO IO-FUNC.
           PERFORM CALL-IO.
           MOVE 18 TO WANTED.
           PERFORM INSERT-PART UNTIL MADE = WANTED.
           IF DOING = 'ABEND'
               CALL 'NOWHERE'.
           IF DOING = 'ROLL'
               MOVE 'ROLL' TO IO-FUNC
               PERFORM CALL-IO.
           IF DOING = 'ROLB'
               PERFORM TAKE-BACK.
           IF DOING = 'STATS'
               MOVE 'STAT' TO IO-FUNC
               PERFORM CALL-IO.
           IF DOING = 'STOP'
               STOP RUN.
           GOBACK.
       INSERT-TEN.
           ADD 10 TO WANTED.
           PERFORM INSERT-PART UNTIL MADE = WANTED.
           MOVE 'CHKP' TO IO-FUNC.
           CALL 'CBLTDLI' USING IO-FUNC IO-PCB IDENTIFIER.
           DISPLAY MADE ' [' IO-STATUS ']'.
           CALL 'fflush' USING BY VALUE 0.
       INSERT-PART.
           ADD 1 TO MADE.
           MOVE MADE TO PART-NUMBER.
           CALL 'CBLTDLI' USING ISRT-FUNC PARTS-PCB PART-AREA PART-SSA.
           IF PCB-STATUS NOT = SPACES
               DISPLAY 'ISRT ' MADE ' [' PCB-STATUS ']'.
      *    WHAT IS TAKEN BACK IS GONE, AND THE PCB IS AT THE START.
       TAKE-BACK.
           MOVE 'ROLB' TO IO-FUNC.
           PERFORM CALL-IO.
           CALL 'CBLTDLI' USING GN-FUNC PARTS-PCB PART-AREA PART-SSA.
           DISPLAY 'GN [' PCB-STATUS '] ' PCB-KEY.
           MOVE 15 TO MADE.
           MOVE 17 TO WANTED.
           PERFORM INSERT-PART UNTIL MADE = WANTED.
       CALL-IO.
           CALL 'CBLTDLI' USING IO-FUNC IO-PCB IDENTIFIER.
           PERFORM TELL-STATUS.
       TELL-STATUS.
           DISPLAY IO-FUNC ' [' IO-STATUS ']'.
