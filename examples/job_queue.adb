--  A queue of jobs that are allocated, each with the access value of the next one. The collection of `Link` ends with the block that declares
--  the type (RM 7.6.1): behind `After`, which was declared after the type was frozen, and before `Before`. The manual leaves open which of the
--  jobs is finalized next: under the order oldest it is the one that was allocated first.
with Ada.Finalization; use Ada.Finalization;
with Ada.Text_IO;      use Ada.Text_IO;

procedure Job_Queue is
   type Mark is new Limited_Controlled with record
      Place : Integer := 0;
   end record;

   overriding procedure Finalize (X : in out Mark);

   procedure Finalize (X : in out Mark) is
   begin
      Put_Line ("mark" & Integer'Image (X.Place));
   end Finalize;
begin
   declare
      Before : Mark;

      type Job;
      type Link is access Job;
      type Job is new Limited_Controlled with record
         Number : Integer := 0;
         Next   : Link;
      end record;

      overriding procedure Finalize (X : in out Job);

      First, Last : Link;

      procedure Add (Number : Integer) is
         New_Job : Link := new Job;
      begin
         New_Job.Number := Number;
         if First = null then
            First := New_Job;
         else
            Last.Next := New_Job;
         end if;
         Last := New_Job;
      end Add;

      procedure Finalize (X : in out Job) is
      begin
         if X.Next = null then
            Put_Line ("job" & Integer'Image (X.Number) & ", the last");
         else
            Put_Line ("job" & Integer'Image (X.Number) & " before job" & Integer'Image (X.Next.Number));
         end if;
      end Finalize;

      After : Mark;
      Sum   : Integer := 0;
      Now   : Link;
   begin
      Before.Place := 1;
      After.Place := 2;
      for I in 1 .. 3 loop
         Add (I * I);
      end loop;
      Now := First;
      while Now /= null loop
         Sum := Sum + Now.Number;
         Now := Now.Next;
      end loop;
      Put_Line ("sum" & Integer'Image (Sum));
      First := null;
   end;
   Put_Line ("done");
end Job_Queue;
