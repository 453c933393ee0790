       IDENTIFICATION DIVISION.
       PROGRAM-ID. PARTLOAD.
      *----------------------------------------------------------------
      * LOADS THE PARTS DATABASE FROM A SEQUENTIAL FILE, WHOSE RECORDS
      * STAND IN HIERARCHIC SEQUENCE: THE SEGMENT'S NAME, ITS BYTES.
      *----------------------------------------------------------------
       ENVIRONMENT DIVISION.
       INPUT-OUTPUT SECTION.
       FILE-CONTROL.
           SELECT PARTS-FILE ASSIGN TO PARTSIN
               ORGANIZATION IS LINE SEQUENTIAL.
       DATA DIVISION.
       FILE SECTION.
       FD  PARTS-FILE.
       01  PARTS-RECORD.
           05  IN-SEGMENT          PIC X(8).
           05  IN-BYTES            PIC X(32).
       WORKING-STORAGE SECTION.
       77  ISRT-FUNC               PIC X(4)  VALUE 'ISRT'.
       77  LOADED                  PIC 9(5)  VALUE ZERO.
       77  END-SWITCH              PIC X     VALUE 'N'.
           88  END-OF-PARTS                  VALUE 'Y'.
       01  IO-AREA                 PIC X(32).
       01  PLAIN-SSA.
           05  SSA-SEGMENT         PIC X(8).
           05  FILLER              PIC X     VALUE SPACE.
       LINKAGE SECTION.
       01  PARTS-PCB.
           05  PCB-DBD             PIC X(8).
           05  PCB-LEVEL           PIC X(2).
           05  PCB-STATUS          PIC X(2).
           05  PCB-PROCOPT         PIC X(4).
           05  FILLER              PIC S9(5) COMP.
           05  PCB-SEGMENT         PIC X(8).
           05  PCB-KEY-LENGTH      PIC S9(5) COMP.
           05  PCB-SENSEGS         PIC S9(5) COMP.
           05  PCB-KEY             PIC X(16).
       PROCEDURE DIVISION.
           ENTRY 'DLITCBL' USING PARTS-PCB.
       MAIN-LINE.
           OPEN INPUT PARTS-FILE.
           PERFORM READ-PART.
           PERFORM LOAD-PART UNTIL END-OF-PARTS.
           CLOSE PARTS-FILE.
           DISPLAY 'PARTLOAD: ' LOADED ' SEGMENTS LOADED'.
           GOBACK.
       READ-PART.
           READ PARTS-FILE
               AT END MOVE 'Y' TO END-SWITCH.
       LOAD-PART.
           MOVE IN-SEGMENT TO SSA-SEGMENT.
           MOVE IN-BYTES TO IO-AREA.
           CALL 'CBLTDLI' USING ISRT-FUNC PARTS-PCB IO-AREA PLAIN-SSA.
           IF PCB-STATUS = SPACES
               ADD 1 TO LOADED
           ELSE
               DISPLAY 'PARTLOAD: STATUS ' PCB-STATUS ' AT '
                   IN-SEGMENT IN-BYTES
               MOVE 8 TO RETURN-CODE
           END-IF.
           PERFORM READ-PART.
